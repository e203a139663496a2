//! Clients of messages: requests and their responses, by a writer and a reader.

use crate::host::{EndpointKey, Host, Steps};
use crate::reader::{Framing, ReadFailure, Reader};
use crate::text::{Show, Text};
use crate::writer::{WriteFailure, Writer};

/// How many bytes a tag has.
const TAG: usize = 4;
/// How many a body has at most.
const MOST_BODY: usize = 4096;
/// How many responses may be to come.
const MOST_OUTSTANDING: u32 = 16;

/// A client of a device that answers requests.
pub struct Client {
    pub writer: Writer,
    pub reader: Reader,
    /// How many requests were accepted, and how many responses were given.
    requests: u32,
    responses: u32,
    /// What was read of the next message.
    frame: Vec<u8>,
    /// What ended it.
    ended: Option<MessageFailure>,
}

/// Why there is no tag or no response.
#[derive(Clone, Copy)]
pub enum MessageFailure {
    /// A message of so many bytes has no tag.
    Short(usize),
    TooLong,
    WrongTag {
        expected: u32,
        got: u32,
    },
    Written(WriteFailure),
    Read(ReadFailure),
}

impl MessageFailure {
    /// Whether no call is made after it.
    fn ends(&self) -> bool {
        !matches!(
            self,
            MessageFailure::Written(WriteFailure::TimedOut)
                | MessageFailure::Read(ReadFailure::TimedOut)
        )
    }
}

impl Show for MessageFailure {
    fn show(&self, text: &mut Text) {
        match self {
            MessageFailure::Short(count) => text.word("msgerror short ").number(*count as u64),
            MessageFailure::TooLong => text.word("msgerror too-long"),
            MessageFailure::WrongTag { expected, got } => {
                let text = text.word("msgerror wrong-tag ");
                text.number((*expected).into())
                    .word(" ")
                    .number((*got).into())
            }
            MessageFailure::Written(failure) => text.word("io ").show(failure),
            MessageFailure::Read(failure) => text.word("io ").show(failure),
        };
    }
}

impl Client {
    /// A client of an OUT endpoint and an IN endpoint, with their packet sizes.
    pub fn new(output: (EndpointKey, usize), input: (EndpointKey, usize)) -> Client {
        let mut writer = Writer::new(output.0, output.1, 4160);
        writer.set_depth(4);
        Client {
            writer,
            reader: Reader::new(input.0, input.1, 512),
            requests: 0,
            responses: 0,
            frame: Vec::new(),
            ended: None,
        }
    }

    pub fn outstanding(&self) -> u32 {
        self.requests - self.responses
    }

    /// Keeps a failure that ends the client.
    fn failed(&mut self, failure: MessageFailure) -> MessageFailure {
        if failure.ends() {
            self.ended = Some(failure);
        }
        failure
    }

    /// The body of the message that was read, which is taken off.
    fn take_body(&mut self) -> Result<Vec<u8>, MessageFailure> {
        self.reader.consume_end();
        let mut message = std::mem::take(&mut self.frame);
        let Some((tag, _)) = message.split_first_chunk::<TAG>() else {
            return Err(MessageFailure::Short(message.len()));
        };
        let (expected, got) = (self.responses, u32::from_le_bytes(*tag));
        if got != expected {
            return Err(MessageFailure::WrongTag { expected, got });
        }
        self.responses += 1;
        message.drain(..TAG);
        Ok(message)
    }
}

impl Host {
    pub fn may_request(&self, client: &Client, body: &[u8]) -> bool {
        body.len() <= MOST_BODY
            && client.outstanding() < MOST_OUTSTANDING
            && client.requests < u32::MAX
            && self.may_send(&client.writer, TAG + body.len())
    }

    pub fn may_respond(&self, client: &Client) -> bool {
        client.outstanding() > 0 && self.may_read(&client.reader, Framing::UntilShort)
    }

    /// Sends a request, and gives its tag.
    pub fn request(
        &mut self,
        client: &mut Client,
        body: &[u8],
        steps: &mut Steps,
    ) -> Result<u32, MessageFailure> {
        if let Some(failure) = client.ended {
            return Err(failure);
        }
        let tag = client.requests;
        let frame = [&tag.to_le_bytes(), body].concat();
        let writer = &mut client.writer;
        if let Err(failure) = self.write(writer, &frame, writer.time, steps) {
            return Err(client.failed(MessageFailure::Written(failure)));
        }
        self.send_end(writer);
        client.requests += 1;
        Ok(tag)
    }

    /// Reads the next message to its end.
    fn gather(&mut self, client: &mut Client, steps: &mut Steps) -> Result<(), MessageFailure> {
        let Client { reader, frame, .. } = client;
        loop {
            let time = reader.time;
            let bytes = match self.fill(reader, Framing::UntilShort, time, steps) {
                Ok([]) => return Ok(()),
                Ok(bytes) => bytes,
                Err(failure) => return Err(MessageFailure::Read(failure)),
            };
            let count = bytes.len().min(TAG + MOST_BODY + 1 - frame.len());
            frame.extend_from_slice(&bytes[..count]);
            reader.consume(count);
            if frame.len() > TAG + MOST_BODY {
                return Err(MessageFailure::TooLong);
            }
        }
    }

    /// Takes the next message, and gives its body.
    pub fn respond(
        &mut self,
        client: &mut Client,
        steps: &mut Steps,
    ) -> Result<Vec<u8>, MessageFailure> {
        if let Some(failure) = client.ended {
            return Err(failure);
        }
        let gathered = self.gather(client, steps);
        gathered
            .and_then(|()| client.take_body())
            .map_err(|failure| client.failed(failure))
    }

    pub fn close_client(&mut self, client: &Client) {
        self.close_endpoint(client.writer.endpoint);
        self.close_endpoint(client.reader.endpoint);
    }
}
