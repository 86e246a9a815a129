//! The host calls of Tickmonel that are served today, for guests in Rust without a standard library.
//!
//! Each call, its answers and its faults are described in docs/WORLD.md; a fault ends the process. A stream is a value that
//! is moved and never copied, as its handle stands in one place: who pushes it into a message has it no longer, and who
//! drops it closes it. The scratch area holds one message, so a [`Mailbox`] lends one [`Message`] at a time.
//!
//! Build a guest with Debian's packages rustc, libstd-rust-dev-wasm32 and lld-14, by
//! `make -f sdk/rust/guest.mk guest.wasm`. Modules have integers alone: no `f32` and no `f64`, nor what formats them.
#![no_std]

use core::cell::Cell;
use core::fmt;
use core::marker::PhantomData;
use core::mem::forget;

/// The calls as the host table has them.
pub mod raw {
    #[link(wasm_import_module = "lunatic::message")]
    extern "C" {
        pub fn create_data(tag: i64, size: u64);
        pub fn write_data(bytes: *const u8, len: u32) -> u32;
        pub fn read_data(into: *mut u8, len: u32) -> u32;
        pub fn seek_data(place: u64);
        pub fn data_size() -> u64;
        pub fn get_tag() -> i64;
        pub fn push_tcp_stream(stream: u64) -> u64;
        pub fn take_tcp_stream(slot: u64) -> u64;
        pub fn send(pid: u64) -> u32;
        pub fn receive(tags: *const i64, count: u32, ms: i64) -> u32;
    }
    #[link(wasm_import_module = "lunatic::process")]
    extern "C" {
        pub fn process_id() -> u64;
        pub fn sleep_ms(ms: i64);
    }
    #[link(wasm_import_module = "lunatic::networking")]
    extern "C" {
        pub fn tcp_bind(ip: u32, port: u32, listener: *mut u64) -> u32;
        pub fn tcp_local_port(listener: u64) -> u32;
        pub fn tcp_accept(listener: u64, stream: *mut u64) -> u32;
        pub fn tcp_connect(ip: u32, port: u32, stream: *mut u64) -> u32;
        pub fn tcp_read(stream: u64, into: *mut u8, len: u32, count: *mut u32) -> u32;
        pub fn tcp_write(stream: u64, bytes: *const u8, len: u32, count: *mut u32) -> u32;
        pub fn drop_tcp_stream(stream: u64);
        pub fn drop_tcp_listener(listener: u64);
    }
    #[link(wasm_import_module = "profile")]
    extern "C" {
        pub fn print(bytes: *const u8, len: u32);
    }
}

/// Exports a function without parameters as the entry function: `lunatic::start!(main);`
#[macro_export]
macro_rules! start {
    ($main:ident) => {
        #[no_mangle]
        pub extern "C" fn _start() {
            $main();
        }
    };
}

/// The output of the run, for `write!` and `writeln!`. Each piece is a call that costs traffic: 64 and its bytes.
pub struct Output;

impl fmt::Write for Output {
    fn write_str(&mut self, text: &str) -> fmt::Result {
        print(text.as_bytes());
        Ok(())
    }
}

/// Puts bytes into the output of the run.
pub fn print(bytes: &[u8]) {
    unsafe { raw::print(bytes.as_ptr(), bytes.len() as u32) }
}

/// A process by its number.
#[derive(Clone, Copy, Debug, PartialEq, Eq)]
pub struct Process(pub u64);

impl Process {
    /// This process.
    pub fn this() -> Process {
        Process(unsafe { raw::process_id() })
    }
}

/// Sleeps so many milliseconds.
pub fn sleep(ms: u32) {
    unsafe { raw::sleep_ms(i64::from(ms)) }
}

/// Why a message wasn't sent; it stays in the scratch area.
#[derive(Clone, Copy, Debug, PartialEq, Eq)]
pub enum SendFault {
    /// No live process has the number.
    Nobody,
    /// The mailbox holds 1,024 messages.
    Full,
    /// The machine refused memory.
    NoMemory,
}

/// How long to wait for a message.
#[derive(Clone, Copy, Debug, PartialEq, Eq)]
pub enum Wait {
    /// Not at all.
    No,
    /// Up to so many milliseconds.
    Milliseconds(u32),
    /// Without end.
    Forever,
}

/// What came.
pub enum Received<'a> {
    /// A message.
    Message(Message<'a>),
    /// The signal of a link with this tag.
    Signal(i64),
    /// Nothing that was wanted came in time.
    TimedOut,
}

struct Taken(Cell<bool>);

// A process is one thread.
unsafe impl Sync for Taken {}

static TAKEN: Taken = Taken(Cell::new(false));

/// The mailbox and the scratch area of this process. There is one.
pub struct Mailbox(PhantomData<*mut ()>);

impl Mailbox {
    /// The mailbox, at the first time; then None.
    pub fn take() -> Option<Mailbox> {
        if TAKEN.0.replace(true) {
            return None;
        }
        Some(Mailbox(PhantomData))
    }

    /// A new message without bytes in the scratch area. The streams of the message before are closed.
    pub fn message(&mut self, tag: i64) -> Message<'_> {
        unsafe { raw::create_data(tag, 0) }
        Message(PhantomData)
    }

    /// The first message with one of these tags, or with any where there are none.
    pub fn receive(&mut self, tags: &[i64], wait: Wait) -> Received<'_> {
        let ms = match wait {
            Wait::No => 0,
            Wait::Milliseconds(ms) => i64::from(ms),
            Wait::Forever => -1,
        };
        match unsafe { raw::receive(tags.as_ptr(), tags.len() as u32, ms) } {
            0 => Received::Message(Message(PhantomData)),
            1 => Received::Signal(unsafe { raw::get_tag() }),
            _ => Received::TimedOut,
        }
    }
}

/// The message in the scratch area.
pub struct Message<'a>(PhantomData<&'a mut Mailbox>);

impl<'a> Message<'a> {
    /// Its tag.
    pub fn tag(&self) -> i64 {
        unsafe { raw::get_tag() }
    }

    /// How many bytes it has.
    pub fn size(&self) -> u64 {
        unsafe { raw::data_size() }
    }

    /// Appends bytes, and answers how many: a message holds 1,048,576.
    pub fn write(&mut self, bytes: &[u8]) -> usize {
        unsafe { raw::write_data(bytes.as_ptr(), bytes.len() as u32) as usize }
    }

    /// Copies bytes from the read place on, moves it behind them, and answers how many.
    pub fn read(&mut self, into: &mut [u8]) -> usize {
        unsafe { raw::read_data(into.as_mut_ptr(), into.len() as u32) as usize }
    }

    /// Sets the read place. Past the size of the message is a fault.
    pub fn seek(&mut self, place: u64) {
        unsafe { raw::seek_data(place) }
    }

    /// Moves a stream into the next slot, and answers the slot. After 64 it is a fault.
    pub fn push(&mut self, stream: TcpStream) -> u64 {
        let slot = unsafe { raw::push_tcp_stream(stream.handle) };
        forget(stream);
        slot
    }

    /// Moves the stream of a slot to this process. An empty slot is a fault.
    pub fn take(&mut self, slot: u64) -> TcpStream {
        TcpStream {
            handle: unsafe { raw::take_tcp_stream(slot) },
        }
    }

    /// Sends it to a process, its streams with it.
    pub fn send(self, to: Process) -> Result<(), (SendFault, Message<'a>)> {
        let fault = match unsafe { raw::send(to.0) } {
            0 => return Ok(()),
            1 => SendFault::Nobody,
            2 => SendFault::Full,
            _ => SendFault::NoMemory,
        };
        Err((fault, self))
    }
}

/// Why a call of the network gave nothing.
#[derive(Clone, Copy, Debug, PartialEq, Eq)]
pub enum NetworkFault {
    /// The machine or the peer failed.
    Failed,
    /// 16 listeners, or 256 streams, are the process's already.
    TooMany,
    /// The machine refused memory.
    NoMemory,
}

fn network(code: u32) -> Result<(), NetworkFault> {
    match code {
        0 => Ok(()),
        1 => Err(NetworkFault::Failed),
        2 => Err(NetworkFault::TooMany),
        _ => Err(NetworkFault::NoMemory),
    }
}

/// An IPv4 address.
#[derive(Clone, Copy, Debug, PartialEq, Eq)]
pub struct Ip(pub [u8; 4]);

impl Ip {
    /// 127.0.0.1.
    pub const LOOPBACK: Ip = Ip([127, 0, 0, 1]);

    fn number(self) -> u32 {
        u32::from_be_bytes(self.0)
    }
}

/// A port that this process listens at. Dropped, it is shut.
pub struct TcpListener {
    number: u64,
}

impl TcpListener {
    /// Listens at a port; at port 0 the machine chooses one.
    pub fn bind(ip: Ip, port: u16) -> Result<TcpListener, NetworkFault> {
        let mut number = 0;
        network(unsafe { raw::tcp_bind(ip.number(), u32::from(port), &mut number) })?;
        Ok(TcpListener { number })
    }

    /// The port.
    pub fn port(&self) -> u16 {
        unsafe { raw::tcp_local_port(self.number) as u16 }
    }

    /// Waits until somebody connects.
    pub fn accept(&self) -> Result<TcpStream, NetworkFault> {
        let mut handle = 0;
        network(unsafe { raw::tcp_accept(self.number, &mut handle) })?;
        Ok(TcpStream { handle })
    }
}

impl Drop for TcpListener {
    fn drop(&mut self) {
        unsafe { raw::drop_tcp_listener(self.number) }
    }
}

/// A connection. Dropped, it is closed.
pub struct TcpStream {
    handle: u64,
}

impl TcpStream {
    /// Connects to a port.
    pub fn connect(ip: Ip, port: u16) -> Result<TcpStream, NetworkFault> {
        let mut handle = 0;
        network(unsafe { raw::tcp_connect(ip.number(), u32::from(port), &mut handle) })?;
        Ok(TcpStream { handle })
    }

    /// Waits for bytes, and reads as many as have come, at most 65,536. 0 of an area that isn't empty is the end.
    pub fn read(&mut self, into: &mut [u8]) -> Result<usize, NetworkFault> {
        let mut count = 0;
        network(unsafe { raw::tcp_read(self.handle, into.as_mut_ptr(), into.len() as u32, &mut count) })?;
        Ok(count as usize)
    }

    /// Writes the first of the bytes, at most 65,536, and answers how many.
    pub fn write(&mut self, bytes: &[u8]) -> Result<usize, NetworkFault> {
        let mut count = 0;
        network(unsafe { raw::tcp_write(self.handle, bytes.as_ptr(), bytes.len() as u32, &mut count) })?;
        Ok(count as usize)
    }

    /// Reads until the area is full or the stream is at its end, and answers how many bytes came.
    pub fn read_all(&mut self, into: &mut [u8]) -> Result<usize, NetworkFault> {
        let mut got = 0;
        while got < into.len() {
            let count = self.read(&mut into[got..])?;
            if count == 0 {
                break;
            }
            got += count;
        }
        Ok(got)
    }

    /// Writes all of the bytes, however few go at once.
    pub fn write_all(&mut self, bytes: &[u8]) -> Result<(), NetworkFault> {
        let mut left = bytes;
        while !left.is_empty() {
            let count = self.write(left)?;
            if count == 0 {
                return Err(NetworkFault::Failed);
            }
            left = &left[count..];
        }
        Ok(())
    }
}

impl Drop for TcpStream {
    fn drop(&mut self) {
        unsafe { raw::drop_tcp_stream(self.handle) }
    }
}

#[panic_handler]
fn panic(info: &core::panic::PanicInfo) -> ! {
    use fmt::Write;
    let _ = writeln!(Output, "{}", info);
    core::arch::wasm32::unreachable()
}
