//! The options that a request means: the number and the value of each, from the items of its link. Nothing of `options.rs` is used, so
//! that what a parser finds in coded options can be compared with it.

use crate::reader::{read, Host};

/// The number of an option, and its value.
pub type Meant = (u16, Vec<u8>);

/// The options meant, in order; `None` where the link has none, because it is refused, not absolute, not of CoAP or has a fragment. The
/// length of the destination's address is not judged.
pub fn meant(input: &[u8], address: &[u8], port: u16) -> Option<Vec<Meant>> {
    let reference = read(input).ok()?;
    let (scheme, authority) = reference.absolute()?;
    let default = match scheme.name()? {
        "coap" | "coap+tcp" => 5683,
        "coaps" | "coaps+tcp" => 5684,
        "coap+ws" => 80,
        "coaps+ws" => 443,
        _ => return None,
    };
    if reference.fragment.is_some() {
        return None;
    }
    let host = match authority.host {
        Host::Labels(labels) => Some(labels.iter().collect::<Vec<_>>().join(&b'.')),
        Host::Address(own) if own == address => None,
        Host::Address(own) => Some(printed(own).into_bytes()),
    };
    let own_port = authority.port.unwrap_or(default);
    let mut path: Vec<&[u8]> = reference.path.into_iter().flatten().collect();
    if path == [b""] {
        path.clear();
    }
    let query = reference.query.into_iter().flatten();
    let mut options = Vec::new();
    options.extend(host.map(|host| (3, host)));
    if own_port != port {
        let bytes = [own_port / 256, own_port % 256].map(|byte| byte as u8);
        options.push((7, bytes.into_iter().skip_while(|&byte| byte == 0).collect()));
    }
    options.extend(path.into_iter().map(|segment| (11, segment.to_vec())));
    options.extend(query.map(|parameter| (15, parameter.to_vec())));
    Some(options)
}

/// The URI form of an address.
fn printed(address: &[u8]) -> String {
    if address.len() == 4 {
        let octets: Vec<String> = address.iter().map(u8::to_string).collect();
        return octets.join(".");
    }
    // IPv4-mapped.
    if let Some(octets) = address.strip_prefix(&[0, 0, 0, 0, 0, 0, 0, 0, 0, 0, 0xFF, 0xFF]) {
        return format!("[::ffff:{}]", printed(octets));
    }
    let groups: Vec<String> = address
        .chunks(2)
        .map(|pair| format!("{:x}", u16::from(pair[0]) * 256 + u16::from(pair[1])))
        .collect();
    // Every run of zero groups, the longest before the others, and of one length the first before the others.
    let runs = (2..=8).rev().flat_map(|length| {
        let starts = 0..=8 - length;
        starts.map(move |start| (start, start + length))
    });
    let mut zeros =
        runs.filter(|&(start, end)| groups[start..end].iter().all(|group| group == "0"));
    match zeros.next() {
        Some((start, end)) => format!(
            "[{}::{}]",
            groups[..start].join(":"),
            groups[end..].join(":")
        ),
        None => format!("[{}]", groups.join(":")),
    }
}

/// The options as words: `NUMBER:HEX` each, or `-` where there are none.
pub fn words(options: &[Meant]) -> String {
    if options.is_empty() {
        return "-".to_string();
    }
    let word = |(number, value): &Meant| {
        let digits = value.iter().map(|byte| format!("{byte:02x}"));
        format!("{number}:{}", digits.collect::<String>())
    };
    let words: Vec<String> = options.iter().map(word).collect();
    words.join(" ")
}
