//! Replays recorded scripts: reads a command a line, and writes the lines of the recorded answers.
//!
//! `options SHARED CARGO NUMERATOR DENOMINATOR SECONDS NANOSECONDS`, `request METHOD TARGET`, `response STATUS`,
//! `field NAME VALUE` (both in hexadecimal, of the last message), `time SECONDS NANOSECONDS`, and then `new`,
//! `restart`, `ask` or `receive`.
use http::header::{HeaderMap, HeaderName, HeaderValue};
use http::{request, response, Request, Response};
use http_cache_semantics::{AfterResponse, BeforeRequest, CacheOptions, CachePolicy};
use std::error::Error;
use std::io::{self, BufRead, Write};
use std::time::{Duration, SystemTime};

type Done<T> = Result<T, Box<dyn Error>>;

struct Replay {
    options: CacheOptions,
    request: request::Parts,
    response: response::Parts,
    is_response: bool,
    now: SystemTime,
    policy: Option<CachePolicy>,
    lines: Vec<String>,
}

fn bytes_of(hex: &str) -> Done<Vec<u8>> {
    let digits: Vec<_> = hex.as_bytes().chunks(2).collect();
    digits
        .into_iter()
        .map(|pair| Ok(u8::from_str_radix(std::str::from_utf8(pair)?, 16)?))
        .collect()
}

fn time_of(seconds: i64, nanoseconds: u32) -> SystemTime {
    let second = match u64::try_from(seconds) {
        Ok(after) => SystemTime::UNIX_EPOCH + Duration::from_secs(after),
        Err(_) => SystemTime::UNIX_EPOCH - Duration::from_secs(seconds.unsigned_abs()),
    };
    second + Duration::from_nanos(nanoseconds.into())
}

impl Replay {
    fn new() -> Replay {
        Replay {
            options: CacheOptions::default(),
            request: Request::new(()).into_parts().0,
            response: Response::new(()).into_parts().0,
            is_response: false,
            now: SystemTime::UNIX_EPOCH,
            policy: None,
            lines: Vec::new(),
        }
    }

    fn command(&mut self, words: &[&str]) -> Done<()> {
        match words {
            ["options", rest @ ..] => self.options(rest),
            ["request", method, target] => {
                (self.request, self.is_response) = (Request::new(()).into_parts().0, false);
                (self.request.method, self.request.uri) = (method.parse()?, target.parse()?);
                Ok(())
            }
            ["response", status] => {
                (self.response, self.is_response) = (Response::new(()).into_parts().0, true);
                self.response.status = status.parse()?;
                Ok(())
            }
            ["field", name, value] => self.field(name, value),
            ["time", seconds, nanoseconds] => {
                self.now = time_of(seconds.parse()?, nanoseconds.parse()?);
                Ok(())
            }
            ["new"] => self.begin(),
            ["restart"] => self.restart(),
            ["ask"] => self.ask(),
            ["receive"] => self.receive(),
            _ => Err(format!("no command: {words:?}").into()),
        }
    }

    fn options(&mut self, words: &[&str]) -> Done<()> {
        let numbers = words.iter().map(|word| word.parse::<u64>());
        let numbers = numbers.collect::<Result<Vec<_>, _>>()?;
        self.options = CacheOptions {
            shared: numbers[0] != 0,
            ignore_cargo_cult: numbers[1] != 0,
            cache_heuristic: (numbers[2] as f64 / numbers[3] as f64) as f32,
            immutable_min_time_to_live: Duration::new(numbers[4], numbers[5].try_into()?),
        };
        Ok(())
    }

    fn field(&mut self, name: &str, value: &str) -> Done<()> {
        let headers = if self.is_response {
            &mut self.response.headers
        } else {
            &mut self.request.headers
        };
        headers.append(
            HeaderName::from_bytes(&bytes_of(name)?)?,
            HeaderValue::from_bytes(&bytes_of(value)?)?,
        );
        Ok(())
    }

    fn policy(&self) -> Done<&CachePolicy> {
        self.policy.as_ref().ok_or_else(|| "no policy yet".into())
    }

    fn begin(&mut self) -> Done<()> {
        let policy =
            CachePolicy::new_options(&self.request, &self.response, self.now, self.options);
        let left = policy.time_to_live(self.now);
        let (seconds, nanoseconds) = (left.as_secs(), left.subsec_nanos());
        self.lines.push(format!(
            "storable {} ttl {seconds}.{nanoseconds:09}",
            policy.is_storable()
        ));
        self.policy = Some(policy);
        self.state()
    }

    fn restart(&mut self) -> Done<()> {
        self.policy = Some(CachePolicy::from_bytes(self.policy()?.to_bytes())?);
        self.lines.push("restarted".to_owned());
        Ok(())
    }

    fn state(&mut self) -> Done<()> {
        let policy = self.policy()?;
        let (age, left) = (
            policy.age(self.now).as_nanos(),
            policy.time_to_live(self.now).as_nanos(),
        );
        let (storable, stale) = (policy.is_storable(), policy.is_stale(self.now));
        self.lines.push(format!(
            "  state storable {storable} age {age} ttl {left} stale {stale}"
        ));
        Ok(())
    }

    fn fields(&mut self, headers: &HeaderMap) {
        let mut names: Vec<_> = headers.keys().collect();
        names.sort_by_key(|name| name.as_str());
        for name in names {
            for value in headers.get_all(name) {
                let hex: String = value
                    .as_bytes()
                    .iter()
                    .map(|byte| format!("{byte:02x}"))
                    .collect();
                self.lines.push(format!("  {name}: {hex}"));
            }
        }
    }

    fn ask(&mut self) -> Done<()> {
        match self.policy()?.before_request(&self.request, self.now) {
            BeforeRequest::Fresh(parts) => {
                self.lines
                    .push(format!("fresh age {}", parts.headers["age"].to_str()?));
                self.lines
                    .push(format!("  status {}", parts.status.as_u16()));
                self.fields(&parts.headers);
            }
            BeforeRequest::Stale { request, matches } => {
                self.lines.push(format!("stale matches {matches}"));
                self.lines.push(format!("  method {}", request.method));
                self.lines.push(format!("  target {}", request.uri));
                self.fields(&request.headers);
            }
        }
        self.state()
    }

    fn receive(&mut self) -> Done<()> {
        let (word, policy, parts) =
            match self
                .policy()?
                .after_response(&self.request, &self.response, self.now)
            {
                AfterResponse::NotModified(policy, parts) => ("not-modified", policy, parts),
                AfterResponse::Modified(policy, parts) => ("modified", policy, parts),
            };
        self.lines
            .push(format!("{word} status {}", parts.status.as_u16()));
        self.lines
            .push(format!("  status {}", parts.status.as_u16()));
        self.fields(&parts.headers);
        self.policy = Some(policy);
        self.state()
    }
}

fn main() -> Done<()> {
    let mut replay = Replay::new();
    for line in io::stdin().lock().lines() {
        let line = line?;
        replay.command(&line.split(' ').collect::<Vec<_>>())?;
    }
    let mut out = io::stdout().lock();
    for line in &replay.lines {
        writeln!(out, "{line}")?;
    }
    Ok(())
}
