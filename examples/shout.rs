//! Serves one connection at 127.0.0.1:7071: what comes in goes back in capitals, until the other side ends. On the way the
//! connection goes through a message of the process to itself, as it would go to another process.
//!
//!     ./tickmonel run examples/shout.wasm
//!
//! and in another terminal `echo hello | nc -N 127.0.0.1 7071`.
#![no_std]

use core::fmt::Write;
use lunatic::{Ip, Mailbox, NetworkFault, Output, Process, Received, TcpListener, TcpStream, Wait};

lunatic::start!(main);

fn shout(mut stream: TcpStream) -> Result<u32, NetworkFault> {
    let mut total = 0;
    let mut bytes = [0; 256];
    loop {
        let count = stream.read(&mut bytes)?;
        if count == 0 {
            return Ok(total);
        }
        bytes[..count].make_ascii_uppercase();
        stream.write_all(&bytes[..count])?;
        total += count as u32;
    }
}

fn main() {
    let mut mailbox = Mailbox::take().unwrap();
    let listener = TcpListener::bind(Ip::LOOPBACK, 7071).expect("port 7071 is free");
    let stream = listener.accept().expect("somebody connects");
    let mut message = mailbox.message(1);
    let slot = message.push(stream);
    message.send(Process::this()).ok().expect("the mailbox has room");
    if let Received::Message(mut message) = mailbox.receive(&[1], Wait::Forever) {
        match shout(message.take(slot)) {
            Ok(total) => writeln!(Output, "shouted {} bytes", total),
            Err(fault) => writeln!(Output, "the other side is gone: {:?}", fault),
        }
        .unwrap();
    }
}
