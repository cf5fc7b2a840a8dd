// Definitions and calls of macros cut out of hyper-0.14.19, which is licensed as MIT.

// from src/body/body.rs
macro_rules! opt_len {
            ($content_length:expr) => {{
                let mut hint = SizeHint::default();

                if let Some(content_length) = $content_length.into_opt() {
                    hint.set_exact(content_length);
                }

                hint
            }};
        }
opt_len!(content_length);

// from src/proto/h1/decode.rs
macro_rules! byte (
    ($rdr:ident, $cx:expr) => ({
        let buf = ready!($rdr.read_mem($cx, 1))?;
        if !buf.is_empty() {
            buf[0]
        } else {
            return Poll::Ready(Err(io::Error::new(io::ErrorKind::UnexpectedEof,
                                      "unexpected EOF during chunk size line")));
        }
    })
);
byte!(rdr, cx);

// from src/proto/h1/decode.rs
macro_rules! or_overflow {
            ($e:expr) => (
                match $e {
                    Some(val) => val,
                    None => return Poll::Ready(Err(io::Error::new(
                        io::ErrorKind::InvalidData,
                        "invalid chunk size: overflow",
                    ))),
                }
            )
        }
or_overflow!(size.checked_mul(radix));
or_overflow!(size.checked_add((b - b'0') as u64));
or_overflow!(size.checked_add((b + 10 - b'a') as u64));
or_overflow!(size.checked_add((b + 10 - b'A') as u64));

// from src/proto/h1/role.rs
macro_rules! header_name {
    ($bytes:expr) => {{
        {
            match HeaderName::from_bytes($bytes) {
                Ok(name) => name,
                Err(e) => maybe_panic!(e),
            }
        }
    }};
}
header_name!(&slice[header.name.0..header.name.1]);

// from src/proto/h1/role.rs
macro_rules! header_value {
    ($bytes:expr) => {{
        {
            unsafe { HeaderValue::from_maybe_shared_unchecked($bytes) }
        }
    }};
}
header_value!(slice.slice(header.value.0..header.value.1));

// from src/proto/h2/server.rs
macro_rules! reply {
    ($me:expr, $res:expr, $eos:expr) => {{
        match $me.reply.send_response($res, $eos) {
            Ok(tx) => tx,
            Err(e) => {
                debug!("send response error: {}", e);
                $me.reply.send_reset(Reason::INTERNAL_ERROR);
                return Poll::Ready(Err(crate::Error::new_h2(e)));
            }
        }
    }};
}
reply!(me, res, false);
reply!(me, res, true);
