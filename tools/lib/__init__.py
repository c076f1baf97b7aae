"""What the programs of tools/, the tests, bench/, against-rust/ and embed/ share."""
