//! The library in another program: `served.c` links it and answers through pipes. On another processor than the library's, an emulator
//! runs that program.

use std::io::{self, BufReader, Read, Write};
use std::process::{Child, ChildStdout, Command, Stdio, exit};
use std::sync::{Mutex, OnceLock};
use tailboardy_sys::*;

struct Pipe {
    program: Child,
    from: BufReader<ChildStdout>,
}

impl Pipe {
    /// Starts the program of a command line.
    fn start(line: &str) -> Self {
        let mut words = line.split(' ');
        let mut command = Command::new(words.next().unwrap_or_default());
        let command = command.args(words).stdin(Stdio::piped());
        let spawned = command.stdout(Stdio::piped()).spawn();
        let mut program = spawned.expect("SERVED: a program that starts");
        let from = program.stdout.take().expect("a pipe");
        Pipe {
            program,
            from: BufReader::new(from),
        }
    }

    fn send(&mut self, sent: &[u8]) {
        let to = self.program.stdin.as_mut().expect("a pipe");
        to.write_all(sent).unwrap_or_else(|error| self.ended(error));
    }

    fn bytes<const N: usize>(&mut self) -> [u8; N] {
        let mut bytes = [0; N];
        let read = self.from.read_exact(&mut bytes);
        read.unwrap_or_else(|error| self.ended(error));
        bytes
    }

    /// Without the program no further call can be answered.
    fn ended(&mut self, error: io::Error) -> ! {
        let status = self.program.wait();
        eprintln!("the program that SERVED names: {error}, {status:?}");
        exit(1)
    }
}

/// The program that `SERVED` names, started once.
fn pipe() -> Option<&'static Mutex<Pipe>> {
    static PIPE: OnceLock<Option<Mutex<Pipe>>> = OnceLock::new();
    let start = |line: String| Mutex::new(Pipe::start(&line));
    PIPE.get_or_init(|| std::env::var("SERVED").ok().map(start))
        .as_ref()
}

/// Whether a program answers the calls.
pub fn named() -> bool {
    pipe().is_some()
}

/// What is passed by value or returned: each number in 64 bits, a struct by its fields.
trait Plain {
    fn put(self, sent: &mut Vec<u8>);
    fn take(from: &mut Pipe) -> Self;
}

impl Plain for u64 {
    fn put(self, sent: &mut Vec<u8>) {
        sent.extend(self.to_le_bytes());
    }
    fn take(from: &mut Pipe) -> Self {
        u64::from_le_bytes(from.bytes())
    }
}

impl Plain for f64 {
    fn put(self, sent: &mut Vec<u8>) {
        self.to_bits().put(sent);
    }
    fn take(from: &mut Pipe) -> Self {
        f64::from_bits(Plain::take(from))
    }
}

impl Plain for bool {
    fn put(self, sent: &mut Vec<u8>) {
        u64::from(self).put(sent);
    }
    fn take(from: &mut Pipe) -> Self {
        let number = u64::take(from);
        assert!(number < 2, "a flag");
        number == 1
    }
}

macro_rules! wholes {
    ($($number:ty)*) => {$(
        impl Plain for $number {
            fn put(self, sent: &mut Vec<u8>) {
                (self as u64).put(sent);
            }
            fn take(from: &mut Pipe) -> Self {
                u64::take(from).try_into().expect("a number of this type")
            }
        }
    )*};
}
wholes!(u16 u32 usize);

macro_rules! fields {
    ($($name:ident: $($field:ident)*;)*) => {$(
        impl Plain for $name {
            fn put(self, sent: &mut Vec<u8>) {
                $(self.$field.put(sent);)*
            }
            fn take(from: &mut Pipe) -> Self {
                $(let $field = Plain::take(from);)*
                $name { $($field),* }
            }
        }
    )*};
}
fields! {
    TreeSettings: limited limit leaf split tried random lower;
    TreeTold: number part place row nodes depth mass searches words thresholds;
    ForestSettings: limited limit leaf split said tried random lower;
    Refusal: number part place row;
    ErrorTold: number error rows;
    NodeTold: number there value feature threshold score true_child false_child;
    SizeTold: number bytes;
    ModelTold: number place features trees nodes;
}

/// An entry of a slice, in as many bytes as it has in memory.
trait Entry: Sized {
    fn put(&self, sent: &mut Vec<u8>);
    fn take(from: &mut Pipe) -> Self;
}

macro_rules! entries {
    ($($number:ty)*) => {$(
        impl Entry for $number {
            fn put(&self, sent: &mut Vec<u8>) {
                sent.extend(self.to_le_bytes());
            }
            fn take(from: &mut Pipe) -> Self {
                Self::from_le_bytes(from.bytes())
            }
        }
    )*};
}
entries!(u8 u32 usize f64);

impl Entry for bool {
    fn put(&self, sent: &mut Vec<u8>) {
        sent.push(u8::from(*self));
    }
    fn take(from: &mut Pipe) -> Self {
        let [byte] = from.bytes();
        assert!(byte < 2, "a flag");
        byte == 1
    }
}

impl<T: Entry, const N: usize> Entry for [T; N] {
    fn put(&self, sent: &mut Vec<u8>) {
        self.iter().for_each(|entry| entry.put(sent));
    }
    fn take(from: &mut Pipe) -> Self {
        std::array::from_fn(|_| T::take(from))
    }
}

fn put<T: Entry>(slice: &[T], sent: &mut Vec<u8>) {
    Plain::put(slice.len(), sent);
    slice.iter().for_each(|entry| entry.put(sent));
}

fn take_back<T: Entry>(slice: &mut [T], from: &mut Pipe) {
    slice.iter_mut().for_each(|entry| *entry = T::take(from));
}

/// Sends the kind and then everything in order, but the slices that are read before those that are written; receives the result and
/// the entries of the slices that were written.
macro_rules! serve {
    ($($kind:literal $name:ident = $symbol:ident($($given:ident: $number:ty),*)
        fills($($room:ident: $filled:ty),*) reads($($shared:ident: $read:ty),*) writes($($lent:ident: $written:ty),*)
        ($($last:ident: $after:ty),*) -> $told:ty;)*) => {$(
        pub fn $name(
            $($given: $number,)*
            $($room: &mut [$filled],)*
            $($shared: &[$read],)*
            $($lent: &mut [$written],)*
            $($last: $after,)*
        ) -> $told {
            let pipe = pipe().expect("SERVED: the program that has the library");
            let pipe = &mut *pipe.lock().expect("no call has failed");
            let mut sent = Vec::new();
            Plain::put($kind as u64, &mut sent);
            $(Plain::put($given, &mut sent);)*
            $(put($shared, &mut sent);)*
            $(put($room, &mut sent);)*
            $(put($lent, &mut sent);)*
            $(Plain::put($last, &mut sent);)*
            pipe.send(&sent);
            let told = Plain::take(pipe);
            $(take_back($room, pipe);)*
            $(take_back($lent, pipe);)*
            told
        }
    )*};
}

calls!(serve);
