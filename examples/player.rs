//! A player in Rust that uses the C library.
//!
//! `player BLOCKS.. <stream` feeds a raw stream, and after each of these numbers of blocks (ascending) writes the screen to
//! the file BLOCKS.ppm.
//!
//! rustc --edition 2021 -O examples/player.rs -L lib -l dylib=ribjasper
use std::error::Error;
use std::ffi::CStr;
use std::fs::File;
use std::io::{self, Read, Write};
use std::os::raw::{c_char, c_void};

const BLOCK: usize = 96;
const WIDTH: usize = 300;
const HEIGHT: usize = 216;
const RGB: u32 = 1;

/// The C struct of a player; a struct of zeros is closed.
#[repr(C)]
struct Handle {
    at: *mut c_void,
    is_open: bool,
}

/// The rectangle of the screen that may have changed.
#[repr(C)]
#[derive(Default)]
struct Change {
    left: u32,
    top: u32,
    right: u32,
    bottom: u32,
    colours: u8,
    levels: u8,
}

extern "C" {
    fn ribjasper_player_open(player: *mut Handle) -> i32;
    fn ribjasper_player_close(player: *mut Handle);
    fn ribjasper_player_feed_all(
        player: *mut Handle,
        blocks: *const [u8; BLOCK],
        count: usize,
        change: *mut Change,
    ) -> i32;
    fn ribjasper_player_pixels(
        player: *const Handle,
        format: u32,
        x: u32,
        y: u32,
        width: u32,
        height: u32,
        out: *mut u8,
        room: usize,
        stride: u32,
    ) -> i32;
    fn ribjasper_answer_text(answer: i32, text: *mut [c_char; 64]);
}

/// An open player, which is closed when it is dropped.
struct Player(Handle);

impl Player {
    fn open() -> Result<Player, Box<dyn Error>> {
        let mut handle = Handle {
            at: std::ptr::null_mut(),
            is_open: false,
        };
        check(unsafe { ribjasper_player_open(&mut handle) })?;
        Ok(Player(handle))
    }

    /// Feeds some blocks in one call.
    fn feed(&mut self, blocks: &[[u8; BLOCK]]) -> Result<Change, Box<dyn Error>> {
        let mut change = Change::default();
        let count = blocks.len();
        check(unsafe {
            ribjasper_player_feed_all(&mut self.0, blocks.as_ptr(), count, &mut change)
        })?;
        Ok(change)
    }

    /// Writes red, green and blue of the changed pixels into a picture of the whole screen. The library moves the player out of
    /// its handle while it reads it, so this needs an exclusive reference.
    fn draw(&mut self, change: &Change, picture: &mut [u8]) -> Result<(), Box<dyn Error>> {
        let (left, top, right, bottom) = if change.colours == 1 {
            (0, 0, WIDTH as u32, HEIGHT as u32)
        } else {
            (change.left, change.top, change.right, change.bottom)
        };
        if left >= right {
            return Ok(());
        }
        let room = &mut picture[3 * (WIDTH * top as usize + left as usize)..];
        let stride = 3 * WIDTH as u32;
        let (width, height) = (right - left, bottom - top);
        check(unsafe {
            ribjasper_player_pixels(
                &self.0,
                RGB,
                left,
                top,
                width,
                height,
                room.as_mut_ptr(),
                room.len(),
                stride,
            )
        })
    }
}

impl Drop for Player {
    fn drop(&mut self) {
        unsafe { ribjasper_player_close(&mut self.0) }
    }
}

/// Turns an answer of the library into a result; an error has the answer in words.
fn check(answer: i32) -> Result<(), Box<dyn Error>> {
    if answer == 0 {
        return Ok(());
    }
    let mut text = [0; 64];
    unsafe { ribjasper_answer_text(answer, &mut text) };
    Err(unsafe { CStr::from_ptr(text.as_ptr()) }.to_str()?.into())
}

fn main() -> Result<(), Box<dyn Error>> {
    let mut stream = Vec::new();
    io::stdin().read_to_end(&mut stream)?;
    let blocks: Vec<[u8; BLOCK]> = stream
        .chunks_exact(BLOCK)
        .map(|block| block.try_into().unwrap())
        .collect();
    let mut player = Player::open()?;
    let mut picture = vec![0; 3 * WIDTH * HEIGHT];
    let mut done = 0;
    for word in std::env::args().skip(1) {
        let moment: usize = word.parse()?;
        let change = player.feed(blocks.get(done..moment).ok_or("the stream has no such block")?)?;
        player.draw(&change, &mut picture)?;
        done = moment;
        let mut file = File::create(format!("{moment}.ppm"))?;
        write!(file, "P6\n{WIDTH} {HEIGHT}\n255\n")?;
        file.write_all(&picture)?;
    }
    Ok(())
}
