use crate::fault::Fault;
use crate::text::Line;

#[derive(Clone, Copy, PartialEq, Eq, Debug)]
pub enum Call<'a> {
    Arrive { task: &'a [u8], times: u64 },
    Need { task: &'a [u8], ticks: u64 },
    Ticks { claimed: bool, times: u64 },
}

impl Call<'_> {
    pub fn read(line: Line<'_>) -> Result<Call<'_>, Fault> {
        if line.bytes.is_empty() {
            return line.refuse(3);
        }
        let fields = line.fields::<3>()?;
        let all = || {
            if fields.at(2) == b"all" {
                Ok(())
            } else {
                fields.refuse(6, 2)
            }
        };
        let value = || fields.number(3, 0..=999_999_999);
        match fields.at(1) {
            b"arrive" => Ok(Call::Arrive {
                task: fields.name(2)?,
                times: value()?,
            }),
            b"need" => Ok(Call::Need {
                task: fields.name(2)?,
                ticks: value()?,
            }),
            b"quiet" => all().and_then(|()| {
                Ok(Call::Ticks {
                    claimed: false,
                    times: value()?,
                })
            }),
            b"busy" => all().and_then(|()| {
                Ok(Call::Ticks {
                    claimed: true,
                    times: value()?,
                })
            }),
            _ => fields.refuse(6, 1),
        }
    }
}
