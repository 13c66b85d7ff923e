//! A client's connection to a node: RESP 2, just as much as is needed.

use std::io::{self, BufRead, BufReader, Read, Write};
use std::net::{SocketAddr, TcpStream};
use std::time::Duration;

/// What a request is answered.
#[derive(Clone, PartialEq, Eq, Debug)]
pub enum Reply {
    Simple(String),
    Error(String),
    Number(i64),
    Bulk(Option<String>),
    Array(Vec<Reply>),
}

/// A connection to a node.
pub struct Connection {
    to: TcpStream,
    from: BufReader<TcpStream>,
}

fn bad(text: &str) -> io::Error {
    io::Error::new(io::ErrorKind::InvalidData, text.to_string())
}

impl Connection {
    pub fn open(address: SocketAddr, patience: Duration) -> io::Result<Self> {
        let to = TcpStream::connect_timeout(&address, patience)?;
        to.set_nodelay(true)?;
        to.set_read_timeout(Some(patience))?;
        to.set_write_timeout(Some(patience))?;
        let from = BufReader::new(to.try_clone()?);
        Ok(Connection { to, from })
    }

    /// Sends requests, and returns their answers. After an error nothing is known of what became of them.
    pub fn ask(&mut self, requests: &[Vec<&str>]) -> io::Result<Vec<Reply>> {
        let mut bytes = Vec::new();
        for words in requests {
            write!(bytes, "*{}\r\n", words.len())?;
            for word in words {
                write!(bytes, "${}\r\n{word}\r\n", word.len())?;
            }
        }
        self.to.write_all(&bytes)?;
        requests.iter().map(|_| self.reply()).collect()
    }

    fn line(&mut self) -> io::Result<String> {
        let mut line = String::new();
        if self.from.read_line(&mut line)? == 0 {
            return Err(io::ErrorKind::UnexpectedEof.into());
        }
        Ok(line.trim_end().to_string())
    }

    fn reply(&mut self) -> io::Result<Reply> {
        let line = self.line()?;
        let (kind, text) = line.split_at_checked(1).ok_or_else(|| bad("an empty line"))?;
        let number = || text.parse::<i64>().map_err(|_| bad(&line));
        Ok(match kind {
            "+" => Reply::Simple(text.to_string()),
            "-" => Reply::Error(text.to_string()),
            ":" => Reply::Number(number()?),
            "$" => match usize::try_from(number()?) {
                Err(_) => Reply::Bulk(None),
                Ok(count) => {
                    let mut bytes = vec![0; count + 2];
                    self.from.read_exact(&mut bytes)?;
                    bytes.truncate(count);
                    Reply::Bulk(Some(String::from_utf8(bytes).map_err(|_| bad("no text"))?))
                }
            },
            "*" => {
                let count = number()?;
                Reply::Array((0..count).map(|_| self.reply()).collect::<io::Result<_>>()?)
            }
            _ => return Err(bad(&line)),
        })
    }
}
