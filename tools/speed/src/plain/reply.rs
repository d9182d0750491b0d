//! The replies.

use super::memory::{Layout, Memory};
use super::wire::Wire;
use super::{table, Header, List};

/// Writes what stands before a reply's data: `size` wire bytes of data, and the end code. Says where the data begin.
fn head<W: Wire>(
    frame: &[u8],
    header: &Header,
    size: usize,
    end_code: u16,
    out: &mut [u8],
) -> usize {
    let word = 2 * W::BYTES;
    let route_at = header.route_at;
    if route_at == word {
        out[..word].copy_from_slice(W::REPLY_3E);
    } else {
        out[..word].copy_from_slice(W::REPLY_4E);
        out[word..2 * word].copy_from_slice(&frame[word..2 * word]);
        out[2 * word..3 * word].copy_from_slice(W::ZERO_WORD);
    }
    let length_at = route_at + 5 * W::BYTES;
    out[route_at..length_at].copy_from_slice(&frame[route_at..length_at]);
    W::put_word(&mut out[length_at..], (size + word) as u16);
    W::put_word(&mut out[length_at + word..], end_code);
    length_at + 2 * word
}

/// The error reply.
pub fn refuse<W: Wire>(frame: &[u8], header: &Header, end_code: u16, out: &mut [u8]) -> usize {
    let at = head::<W>(frame, header, 9 * W::BYTES, end_code, out);
    let command_at = at + 5 * W::BYTES;
    let end = at + 9 * W::BYTES;
    out[at..command_at].copy_from_slice(&frame[header.route_at..][..5 * W::BYTES]);
    out[command_at..end].copy_from_slice(&frame[header.command_at..][..4 * W::BYTES]);
    end
}

/// A reply with no data.
pub fn accept<W: Wire>(frame: &[u8], header: &Header, out: &mut [u8]) -> usize {
    head::<W>(frame, header, 0, 0, out)
}

pub fn show_words<W: Wire, L: Layout>(
    frame: &[u8],
    header: &Header,
    memory: &Memory<L>,
    device: usize,
    number: u32,
    points: usize,
    out: &mut [u8],
) -> usize {
    let size = 2 * W::BYTES * points;
    let at = head::<W>(frame, header, size, 0, out);
    let step = table::word_points(device);
    let fields = out[at..at + size].chunks_exact_mut(2 * W::BYTES);
    for (i, field) in fields.enumerate() {
        W::put_word(field, memory.word(device, number + i as u32 * step));
    }
    at + size
}

pub fn show_bits<W: Wire, L: Layout>(
    frame: &[u8],
    header: &Header,
    memory: &Memory<L>,
    device: usize,
    number: u32,
    points: usize,
    out: &mut [u8],
) -> usize {
    let size = W::bits_size(points);
    let at = head::<W>(frame, header, size, 0, out);
    W::put_bits(&mut out[at..at + size], points, |i| {
        memory.bit(device, number + i as u32)
    });
    at + size
}

pub fn show_list<W: Wire, L: Layout>(
    frame: &[u8],
    header: &Header,
    memory: &Memory<L>,
    list: &List,
    out: &mut [u8],
) -> usize {
    let (words, doubles) = list.accesses.split_at(list.words);
    let word = 2 * W::BYTES;
    let size = word * (words.len() + 2 * doubles.len());
    let at = head::<W>(frame, header, size, 0, out);
    let behind = at + word * words.len();
    for (field, access) in out[at..behind].chunks_exact_mut(word).zip(words) {
        W::put_word(field, memory.word(access.device, access.number));
    }
    for (field, access) in out[behind..at + size]
        .chunks_exact_mut(2 * word)
        .zip(doubles)
    {
        let low = memory.word(access.device, access.number);
        let next = access.number + table::word_points(access.device);
        let high = memory.word(access.device, next);
        // a double word is one number: its high word comes first where digits do
        if W::BYTES == 1 {
            W::put_word(field, low);
            W::put_word(&mut field[word..], high);
        } else {
            W::put_word(field, high);
            W::put_word(&mut field[word..], low);
        }
    }
    at + size
}
