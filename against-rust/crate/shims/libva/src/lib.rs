//! The names of the crate libva that cros-codecs' feature "vaapi" uses; there is no driver behind them.

pub struct Display;
pub struct VASurfaceAttrib;
pub struct Surface<D>(pub D);

pub trait SurfaceMemoryDescriptor {
    fn add_attrs(&mut self, attrs: &mut Vec<VASurfaceAttrib>) -> Option<Box<dyn std::any::Any>>;
}

impl SurfaceMemoryDescriptor for () {
    fn add_attrs(&mut self, _: &mut Vec<VASurfaceAttrib>) -> Option<Box<dyn std::any::Any>> {
        None
    }
}
