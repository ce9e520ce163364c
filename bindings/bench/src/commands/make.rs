use super::Ended;
use crate::request::{Op, Request, Source};
use crate::requests::Requests;
use crate::stop;
use clap::Args;
use std::io::{self, BufWriter, ErrorKind, Write};

/// Writes requests as lines in Twitter's form.
#[derive(Debug, Args)]
pub struct Make {
    #[command(flatten)]
    requests: Requests,

    /// So many requests stand in each second
    #[arg(long, value_name = "COUNT", default_value_t = 1000, value_parser = clap::value_parser!(u64).range(1..))]
    a_second: u64,
}

impl Make {
    /// Writes them to the standard output. Where nobody reads them any more, that is its end.
    pub fn go(&self) -> Ended {
        match self.write(&mut BufWriter::with_capacity(1 << 18, io::stdout().lock())) {
            Err(error) if error.downcast_ref::<io::Error>().is_some_and(|it| it.kind() == ErrorKind::BrokenPipe) => {
                Ok(())
            }
            ended => ended,
        }
    }

    fn write(&self, out: &mut impl Write) -> Ended {
        let (mut source, mut request, mut count) = (self.requests.open()?, Request::default(), 0u64);
        while !(count.is_multiple_of(4096) && stop::is_told()) && source.next(&mut request)? {
            let Request { op, ref key, value, ttl, .. } = request;
            // (a get of no size is one that stores nothing)
            let (word, value) = match op {
                Op::Get => ("get", value),
                Op::Look => ("get", 0),
                Op::Set => ("set", value),
                Op::Delete => ("delete", 0),
            };
            write!(out, "{},", count / self.a_second)?;
            out.write_all(key)?;
            writeln!(out, ",{},{value},1,{word},{ttl}", key.len())?;
            count += 1;
        }
        Ok(out.flush()?)
    }
}
