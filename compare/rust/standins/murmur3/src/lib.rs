//! Stand-in: Bucket is outside document 01; never run.
pub fn murmur3_32<R: std::io::Read>(_: &mut R, _: u32) -> std::io::Result<u32> {
    unimplemented!("stand-in")
}
