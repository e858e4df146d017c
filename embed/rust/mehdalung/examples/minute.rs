//! The first minute of README, from Rust: it prints what sgrun prints.
use mehdalung::{Disk, Error, Reply};
use std::process::ExitCode;

/// Prints the reply of a line, and returns its exit status.
fn print(line: u32, reply: Reply) -> u8 {
    println!("line {line}: {}", reply.status_name());
    print!("{}", reply.text().expect("no memory for a text"));
    reply.exit_status()
}

fn main() -> Result<ExitCode, Error> {
    let request_sense = [0x03, 0, 0, 0, 0, 0];
    let write = |count| [0x2A, 0, 0, 0, 0, 0, 0, 0, count, 0];
    let mut disk = Disk::new(4096, 4, None)?;
    print(1, disk.execute(0, &request_sense, &[])?);
    print(2, disk.tool(0, "sg_vpd -p lbpv")?);
    print(3, disk.execute(0, &write(4), &[0xAB; 2048])?);
    print(4, disk.tool(0, "sg_unmap -l 1 -n 2")?);
    print(5, disk.tool(0, "sg_get_lba_status -b -m 72")?);
    print(6, disk.tool(0, "sg_persist -G -S a1")?);
    print(7, disk.tool(0, "sg_persist -R -K a1 -T 1")?);
    print(8, disk.execute(1, &request_sense, &[])?);
    let status = print(9, disk.execute(1, &write(1), &[0; 512])?);
    Ok(ExitCode::from(status))
}
