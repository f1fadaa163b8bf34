// Reads a study of two resistors, advances its one area by its one step and prints the voltage between them: 50.0 V.
// Build: rustc -L target/staticlib -l static=emt examples/caller.rs -o caller
extern "C" {
    fn emt_read(text: *const u8, text_len: usize, network: *mut i64, network_len: usize, line: *mut u64) -> u64;
    #[rustfmt::skip]
    fn emt_reset(network: *const i64, network_len: usize, records: *mut i64, records_len: usize, froms: *mut i64,
        froms_len: usize, tos: *mut i64, tos_len: usize) -> u64;
    #[rustfmt::skip]
    fn emt_advance(network: *const i64, network_len: usize, records: *mut i64, records_len: usize, froms: *mut i64,
        froms_len: usize, tos: *mut i64, tos_len: usize, area: u64, place: *mut u64) -> u64;
}

fn main() {
    let text = "study\t1000\t1\t0\nVS\t1\t1000\t1\t0\nR\t1\t2\t2000\nR\t2\t0\t2000\n";
    let (mut network, mut records, mut froms, mut tos) = ([0i64; 1024], [0i64; 1024], [0i64; 4096], [0i64; 4096]);
    let mut place = 0;
    let (n, r, f, t) = (network.as_mut_ptr(), records.as_mut_ptr(), froms.as_mut_ptr(), tos.as_mut_ptr());
    // SAFETY: each pointer comes with the length of its own array, and no two arrays overlap.
    let answers = unsafe {
        [
            emt_read(text.as_ptr(), text.len(), n, 1024, &mut place),
            emt_reset(n, 1024, r, 1024, f, 4096, t, 4096),
            emt_advance(n, 1024, r, 1024, f, 4096, t, 4096, 1, &mut place),
        ]
    };
    assert_eq!(answers, [0, 0, 0], "refused at {place}");
    println!("node 2 after step {place}: {:.1} V", records[32 + 2 - 1] as f64 / 10.0);
}
