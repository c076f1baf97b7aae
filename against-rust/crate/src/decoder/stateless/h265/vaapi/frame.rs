//! No frame stands behind a picture's handle. bench/ uses it too.

use std::rc::Rc;
use std::sync::Arc;

use super::Handle;
use crate::decoder::DecodedHandle;
use crate::video_frame::ReadMapping;
use crate::video_frame::VideoFrame;
use crate::video_frame::WriteMapping;
use crate::Fourcc;
use crate::Resolution;

/// There are no frames: the decoder only hands handles about.
#[derive(Debug)]
pub struct Frame;

impl DecodedHandle for Handle {
    type Frame = Frame;

    fn video_frame(&self) -> Arc<Frame> {
        Arc::new(Frame)
    }

    fn timestamp(&self) -> u64 {
        0
    }

    fn coded_resolution(&self) -> Resolution {
        Resolution::default()
    }

    fn display_resolution(&self) -> Resolution {
        Resolution::default()
    }

    fn is_ready(&self) -> bool {
        true
    }

    fn sync(&self) -> anyhow::Result<()> {
        Ok(())
    }
}

impl VideoFrame for Frame {
    type MemDescriptor = ();
    type NativeHandle = libva::Surface<()>;

    fn fourcc(&self) -> Fourcc {
        Fourcc::default()
    }

    fn resolution(&self) -> Resolution {
        Resolution::default()
    }

    fn get_plane_size(&self) -> Vec<usize> {
        vec![]
    }

    fn get_plane_pitch(&self) -> Vec<usize> {
        vec![]
    }

    fn map<'a>(&'a self) -> Result<Box<dyn ReadMapping<'a> + 'a>, String> {
        Err("no frame".into())
    }

    fn map_mut<'a>(&'a mut self) -> Result<Box<dyn WriteMapping<'a> + 'a>, String> {
        Err("no frame".into())
    }

    fn to_native_handle(&self, _: &Rc<libva::Display>) -> Result<libva::Surface<()>, String> {
        Err("no frame".into())
    }
}
