//! postmig's library for Rust: the parts that `decode.rs` and `bench/compare/embed.py` need.

use std::ptr::null_mut;

#[repr(C)]
struct Handle {
    at: *mut u8,
}

/// A frame without the bytes and lists that it carries.
#[repr(C)]
#[derive(Clone, Copy, Debug, Default)]
pub struct Frame {
    pub tag: u32,
    pub epoch: u32,
    pub addr: u64,
    pub count: u64,
}

unsafe extern "C" {
    fn postmig_world_new(cpus: u8, is_transcript: bool, handle: *mut Handle) -> u32;
    fn postmig_world_line(handle: *mut Handle, line: *const u8, length: usize, out: *mut u8, room: usize, written: *mut usize) -> u32;
    fn postmig_world_answer(handle: *mut Handle, out: *mut u8, room: usize, written: *mut usize) -> u32;
    fn postmig_frames_new(handle: *mut Handle) -> u32;
    fn postmig_frames_feed(handle: *mut Handle, bytes: *const u8, length: usize) -> u32;
    fn postmig_frames_next(handle: *mut Handle, frame: *mut Frame, out: *mut u8, room: usize, written: *mut usize) -> u32;
    fn postmig_free(handle: *mut Handle);
}

pub const NO_ROOM: u32 = 1;
pub const NO_FRAME: u32 = 6;

/// Another status than 0, as `postmig.h` numbers them.
#[derive(Clone, Copy, Debug, PartialEq, Eq)]
pub struct Refused(pub u32);

fn ensure(status: u32) -> Result<(), Refused> {
    if status == 0 { Ok(()) } else { Err(Refused(status)) }
}

/// A handle and memory for its answers. It is neither `Send` nor `Sync`, since a handle stays on its thread.
struct Open {
    handle: Handle,
    out: Vec<u8>,
}

impl Open {
    fn new(open: impl FnOnce(*mut Handle) -> u32) -> Result<Open, Refused> {
        let mut handle = Handle { at: null_mut() };
        ensure(open(&mut handle))?;
        Ok(Open { handle, out: vec![0; 8192] })
    }
}

impl Drop for Open {
    fn drop(&mut self) {
        unsafe { postmig_free(&mut self.handle) }
    }
}

/// A world.
pub struct World(Open);

impl World {
    pub fn new(cpus: u8) -> Result<World, Refused> {
        Ok(World(Open::new(|handle| unsafe { postmig_world_new(cpus, false, handle) })?))
    }

    /// Does a line of a script, without its line feed, and returns what it prints.
    pub fn line(&mut self, line: &[u8]) -> Result<&[u8], Refused> {
        let Open { handle, out } = &mut self.0;
        let mut written = 0;
        let mut status = unsafe { postmig_world_line(handle, line.as_ptr(), line.len(), out.as_mut_ptr(), out.len(), &mut written) };
        if status == NO_ROOM {
            out.resize(written, 0);
            status = unsafe { postmig_world_answer(handle, out.as_mut_ptr(), out.len(), &mut written) };
        }
        ensure(status)?;
        Ok(&out[..written])
    }
}

/// A decoder of a stream of frames.
pub struct Frames(Open);

impl Frames {
    pub fn new() -> Result<Frames, Refused> {
        Ok(Frames(Open::new(|handle| unsafe { postmig_frames_new(handle) })?))
    }

    /// Takes the next bytes of the stream, once `next` has returned `None`.
    pub fn feed(&mut self, bytes: &[u8]) -> Result<(), Refused> {
        ensure(unsafe { postmig_frames_feed(&mut self.0.handle, bytes.as_ptr(), bytes.len()) })
    }

    /// The next frame and its bytes; `None` if the stream has to go on.
    pub fn next(&mut self) -> Result<Option<(Frame, &[u8])>, Refused> {
        let Open { handle, out } = &mut self.0;
        let (mut frame, mut written) = (Frame::default(), 0);
        loop {
            match unsafe { postmig_frames_next(handle, &mut frame, out.as_mut_ptr(), out.len(), &mut written) } {
                0 => return Ok(Some((frame, &out[..written]))),
                NO_ROOM => out.resize(written, 0),
                NO_FRAME => return Ok(None),
                status => return Err(Refused(status)),
            }
        }
    }
}
