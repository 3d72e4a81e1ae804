// The errors that the text makes. Its own error module is not in the text.

#[derive(Debug)]
pub enum Error {
    Io(std::io::Error),
    Write(String),
}

pub type Result<T> = std::result::Result<T, Error>;
