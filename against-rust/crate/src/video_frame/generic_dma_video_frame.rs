// Nothing of this module is used by the nine files.
