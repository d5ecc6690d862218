//! The messages. A request is a name as it was offered.
use crate::errors::ProtocolError;
use crate::listing::Name;

/// A file that a side has: eight bytes of its length, the most significant first, and its name.
#[derive(Debug)]
pub struct Offer {
    pub name: Name,
    pub length: u64,
}

impl Offer {
    pub fn encode(&self) -> Vec<u8> {
        [
            &self.length.to_be_bytes()[..],
            self.name.as_str().as_bytes(),
        ]
        .concat()
    }

    pub fn decode(message: &[u8]) -> Result<Offer, ProtocolError> {
        let offer = || {
            let length = message.get(..8)?.try_into().ok()?;
            Some(Offer {
                name: Name::decode(&message[8..])?,
                length: u64::from_be_bytes(length),
            })
        };
        offer().ok_or_else(|| ProtocolError::BadOffer(message.into()))
    }
}

/// A part of a file's contents: any number of chunks, and then one of the other two. Files are sent one after the
/// other, in the order of the requests.
pub enum Piece<'a> {
    /// A byte 0, and the next bytes of the file.
    Chunk(&'a [u8]),
    /// A byte 1: all chunks were sent.
    Whole,
    /// A byte 2: the file could not be read to its end.
    Failed,
}

impl<'a> Piece<'a> {
    pub fn encode(&self) -> Vec<u8> {
        match self {
            Piece::Chunk(bytes) => [&[0], *bytes].concat(),
            Piece::Whole => vec![1],
            Piece::Failed => vec![2],
        }
    }

    pub fn decode(message: &'a [u8]) -> Result<Piece<'a>, ProtocolError> {
        match message {
            [0, bytes @ ..] => Ok(Piece::Chunk(bytes)),
            [1] => Ok(Piece::Whole),
            [2] => Ok(Piece::Failed),
            _ => Err(ProtocolError::BadPiece),
        }
    }
}
