//! What a container file holds, in words.

use beamsatchel_node::layout::share::{SEQUENCE_NUMBER, VERSION};
use beamsatchel_node::layout::{DATA, MAX_LENGTH};
use beamsatchel_node::{Edition, Fault, ListFault, Part, Reason, Refusal, Share, Stretches, View};
use std::io::{self, Write};

/// Bytes in a row of data.
const ROW: usize = 16;

/// What is left out unless it is asked for.
#[derive(Clone, Copy, Default)]
pub struct Shown {
    pub secrets: bool,
    pub data: bool,
}

impl Shown {
    fn secret(self, bytes: &[u8; 32]) -> String {
        match self.secrets {
            true => hex(bytes),
            false => "(not shown)".to_string(),
        }
    }
}

/// Writes what a container file holds, and the list beside it where there is one. Tells whether it is well formed, and
/// the list good.
pub fn dump(
    bytes: &[u8],
    list: Option<&[u8]>,
    shown: Shown,
    out: &mut impl Write,
) -> io::Result<bool> {
    let view = match View::open(bytes) {
        Ok(view) => view,
        Err(refusal) => {
            refused(bytes, refusal, out)?;
            return Ok(false);
        }
    };
    fields(&view, shown, out)?;
    leases(&view, shown, out)?;
    share(bytes, &view, out)?;
    let stretches = list.map(|list| Stretches::open(bytes, list));
    match (list, &stretches) {
        (_, Some(Ok(stretches))) => never_written(stretches, out)?,
        (Some(list), Some(Err(refusal))) => refused_list(bytes, list, refusal, out)?,
        _ => {}
    }
    let good = !matches!(stretches, Some(Err(_)));
    if shown.data {
        data(view.data(), stretches.and_then(Result::ok), out)?;
    }
    Ok(good)
}

fn refused(bytes: &[u8], refusal: Refusal, out: &mut impl Write) -> io::Result<()> {
    writeln!(out, "  refused with outcome {refusal}")?;
    if let Some(fault) = Fault::find(bytes) {
        writeln!(out, "  {fault}")?;
    }
    // No more than one byte too many was read.
    let length = match bytes.len() {
        0..=MAX_LENGTH => bytes_in_words(bytes.len()),
        _ => format!("more than {}", bytes_in_words(MAX_LENGTH)),
    };
    writeln!(out, "  buffer         {length}")
}

fn fields(view: &View<'_>, shown: Shown, out: &mut impl Write) -> io::Result<()> {
    let length = bytes_in_words(view.buffer_len());
    let used = view.used_len();
    let enabler = shown.secret(view.write_enabler().expose());
    writeln!(out, "  buffer         {length}, {used} in use")?;
    writeln!(out, "  node id        {}", view.node_id())?;
    writeln!(out, "  write enabler  {enabler}")?;
    let size = bytes_in_words(view.data().len());
    writeln!(out, "  data           {size} at byte {DATA}")?;
    let slack = bytes_in_words(view.slack_len());
    let data_end = DATA + view.data().len();
    writeln!(out, "  slack          {slack} at byte {data_end}")
}

fn leases(view: &View<'_>, shown: Shown, out: &mut impl Write) -> io::Result<()> {
    writeln!(
        out,
        "  leases         {} present, in 4 places and {} extra",
        view.leases().count(),
        view.extra_places()
    )?;
    for (place, lease) in view.leases() {
        let renewal = shown.secret(lease.renewal.expose());
        let cancel = shown.secret(lease.cancel.expose());
        writeln!(
            out,
            "    place {place}: owner {}, expiry {}",
            lease.owner, lease.expiry
        )?;
        writeln!(out, "      renewal token  {renewal}")?;
        writeln!(out, "      cancel token   {cancel}")?;
        writeln!(out, "      node id        {}", lease.node)?;
    }
    Ok(())
}

fn share(bytes: &[u8], view: &View<'_>, out: &mut impl Write) -> io::Result<()> {
    let share = match Share::in_container(bytes) {
        Ok(share) => share,
        Err(refusal) => {
            writeln!(out, "  share          none, outcome {refusal}")?;
            let (at, byte) = fault_in_share(refusal.reason, view.data());
            return writeln!(out, "                 {at} {}", DATA + byte);
        }
    };
    writeln!(
        out,
        "  share          {}, sequence number {}, any {} of {} shares",
        share.edition(),
        share.sequence_number(),
        share.k(),
        share.n()
    )?;
    let root_hash = hex(&share.root_hash());
    writeln!(out, "    root hash              {root_hash}")?;
    if let Some(iv) = share.iv() {
        writeln!(out, "    IV                     {}", hex(&iv))?;
    }
    writeln!(out, "    segment size           {}", share.segment_size())?;
    writeln!(out, "    data length            {}", share.data_length())?;
    if share.edition() == Edition::Mdmf {
        writeln!(out, "    segments               {}", share.segments())?;
    }
    let mut at = DATA + share.edition().header().len;
    for (name, part) in share.parts() {
        let length = bytes_in_words(part.len());
        writeln!(out, "    {name:<22} {length} at byte {at}")?;
        at += part.len();
    }
    Ok(())
}

/// What a refusal is about, a field or a part of a share: words, and its first byte.
fn fault_in_share(reason: Reason, data: &[u8]) -> (&'static str, usize) {
    // Where there is no edition, it is refused for that, or for its length.
    let version = data.get(VERSION).copied().unwrap_or_default();
    let edition = Edition::from_version(version).unwrap_or(Edition::Sdmf);
    let header = edition.header();
    // The part begins where its field in the header says; those of 26 to 28 lie inside the share.
    let begin = |part: Part| {
        let mut fields = header.offsets.iter();
        let field = fields.find(|field| field.part == Some(part));
        let field = field.expect("a part that has an offset");
        let bytes = &data[field.at..field.at + field.len];
        bytes
            .iter()
            .fold(0, |at, byte| at << 8 | usize::from(*byte))
    };
    let byte = match reason {
        Reason::ShareShort => data.len(),
        Reason::ShareCoding => header.k,
        Reason::ShareSegmentSize => header.segment_size,
        Reason::ShareOffsets => {
            let words = match edition {
                Edition::Sdmf => "among the six offsets from byte",
                Edition::Mdmf => "among the eight offsets from byte",
            };
            return (words, header.offsets[0].at);
        }
        Reason::ShareHashChain => begin(Part::HashChain),
        Reason::ShareBlockTree => begin(Part::BlockTree),
        Reason::ShareData => begin(Part::ShareData),
        Reason::ShareSequence => SEQUENCE_NUMBER,
        _ => VERSION,
    };
    ("at byte", byte)
}

fn never_written(stretches: &Stretches<'_>, out: &mut impl Write) -> io::Result<()> {
    let bytes = bytes_in_words(stretches.byte_count());
    match stretches.len() {
        1 => writeln!(out, "  never written  {bytes} in 1 stretch")?,
        count => writeln!(out, "  never written  {bytes} in {count} stretches")?,
    }
    for stretch in stretches.iter() {
        let last = stretch.end - 1;
        match stretch.len() {
            1 => writeln!(out, "    position {last}")?,
            length => writeln!(
                out,
                "    positions {} to {last}, {length} bytes",
                stretch.start
            )?,
        }
    }
    Ok(())
}

fn refused_list(
    bytes: &[u8],
    list: &[u8],
    refusal: &Refusal,
    out: &mut impl Write,
) -> io::Result<()> {
    writeln!(out, "  list           refused with outcome {refusal}")?;
    match ListFault::find(bytes, list) {
        Some(fault) => writeln!(out, "                 {fault}"),
        None => Ok(()),
    }
}

/// Sixteen bytes to a row behind the position of the first, with printable ASCII beside them.
fn data(data: &[u8], stretches: Option<Stretches<'_>>, out: &mut impl Write) -> io::Result<()> {
    let mut stretches = stretches.iter().flat_map(Stretches::iter).peekable();
    // The positions rise, so that a stretch that ends before one is done with.
    let mut never_written = |position| {
        while stretches
            .next_if(|stretch| stretch.end <= position)
            .is_some()
        {}
        stretches
            .peek()
            .is_some_and(|stretch| stretch.start <= position)
    };
    for (row, bytes) in data.chunks(ROW).enumerate() {
        let positions = row * ROW..;
        let pairs = positions
            .zip(bytes)
            .map(|(position, byte)| match never_written(position) {
                true => "--".to_string(),
                false => format!("{byte:02x}"),
            });
        let pairs: Vec<String> = pairs.collect();
        let text: String = bytes.iter().map(|byte| printable(*byte)).collect();
        let width = ROW * 3 - 1;
        writeln!(
            out,
            "  {:>8}  {:<width$}  |{text}|",
            row * ROW,
            pairs.join(" ")
        )?;
    }
    Ok(())
}

fn printable(byte: u8) -> char {
    match byte {
        b' ' => ' ',
        _ if byte.is_ascii_graphic() => byte.into(),
        _ => '.',
    }
}

fn bytes_in_words(count: usize) -> String {
    match count {
        1 => "1 byte".to_string(),
        _ => format!("{count} bytes"),
    }
}

fn hex(bytes: &[u8]) -> String {
    bytes.iter().map(|byte| format!("{byte:02x}")).collect()
}
