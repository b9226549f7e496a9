use deebqoshaan::{Client, Gateway, length};

/// Challenges as the dairy's day has them: each with its own number, readable on purpose.
pub fn challenge(which: &str, number: u8) -> [u8; 16] {
    format!("{which} challenge {number:02}").into_bytes().try_into().expect("16 letters")
}

/// The handshake of a host, with the challenges of that number.
pub fn connect(gateway: &mut Gateway, client: &mut Client, name: &str, number: u8) -> Result<(), Box<dyn std::error::Error>> {
    let (mut packet, mut room) = ([0; length::REQUEST_MOST], [0; length::REQUESTED]);
    let request = client.request(name, &challenge("1st", number), &mut packet)?;
    let requested = gateway.request(request, &challenge("2nd", number), &mut room)?;
    let host = requested.host;
    let proof = client.proof(requested.bytes, &challenge("3rd", number))?;
    client.open(gateway.proof(host, &proof, &mut room)?.bytes)?;
    Ok(())
}

/// The dairy's gateway and one of its hosts, connected.
pub fn connected(name: &str) -> Result<(Gateway, Client), Box<dyn std::error::Error>> {
    let book = std::fs::read(concat!(env!("CARGO_MANIFEST_DIR"), "/../examples/dairy/dairy.book"))?;
    let (mut gateway, mut client) = (Gateway::load(&book)?, Client::new());
    connect(&mut gateway, &mut client, name, 1)?;
    Ok((gateway, client))
}
