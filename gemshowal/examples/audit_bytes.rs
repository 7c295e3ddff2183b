//! Audits the bytes of a trace: `cargo run --example audit_bytes`.

const TRACE: &[u8] = b"seqtrace 1
process <0.30.0>
{seq_trace,17,{send,{0,1},<0.30.0>,<0.31.0>,5}}
process <0.31.0>
{seq_trace,17,{'receive',{0,1},<0.30.0>,<0.31.0>,5}}
";

fn main() -> Result<(), Box<dyn std::error::Error>> {
    let trace = gemshowal::Trace::read(TRACE)?;
    match gemshowal::audit(&trace) {
        Ok(fits) => println!("fits: {} acts are such a run", fits.acts().len()),
        Err(gemshowal::AuditError::Unfit(unfit)) => println!("{unfit}"),
        Err(error) => return Err(error.into()),
    }
    Ok(())
}
