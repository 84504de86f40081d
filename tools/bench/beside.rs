// The given Rust as a static library for the benchmark: the three files unchanged, with the stand-ins of oracle/. `run` links
// oracle/given.rs, oracle/stand_ins.rs, oracle/private.rs, oracle/outside.rs and the folder of the given files beside this one.
include!("outside.rs");

// Log lines are not made: neither their text nor their arguments.
const fn logged() -> bool {
    false
}

mod given;
mod stand_ins;

pub use stand_ins::*;

unsafe extern "C" {
    // The driver's clock, in microseconds.
    safe fn bench_now() -> f64;
}

unsafe fn bytes<'a>(at: *const u8, len: usize) -> &'a [u8] {
    unsafe { std::slice::from_raw_parts(at, len) }
}

fn paths(list: &[u8]) -> Vec<String> {
    list.split(|&b| b == 0).filter(|p| !p.is_empty()).map(|p| String::from_utf8(p.to_vec()).unwrap()).collect()
}

// One derivation. `took`: microseconds for the stand-in's parse, for `find_all_passthrough_devices`, for `crate_guest_fdt`, and for
// what the stand-in's copies of all nodes take of these two. Answers the guest's length; list and guest are left in `out`, the list
// first, whose length is left in `listed`.
#[unsafe(no_mangle)]
pub unsafe extern "C" fn given_derive(
    host: *const u8,
    host_len: usize,
    configured: *const u8,
    configured_len: usize,
    excluded: *const u8,
    excluded_len: usize,
    ids: *const u64,
    ids_len: usize,
    out: *mut u8,
    room: usize,
    listed: *mut usize,
    took: *mut f64,
) -> usize {
    let (host, configured, excluded) =
        unsafe { (bytes(host, host_len), bytes(configured, configured_len), bytes(excluded, excluded_len)) };
    let ids = unsafe { std::slice::from_raw_parts(ids, ids_len) };
    let (out, took) = unsafe { (std::slice::from_raw_parts_mut(out, room), std::slice::from_raw_parts_mut(took, 4)) };
    let mut config = config::AxVMConfig::new(&paths(configured), &paths(excluded));
    let base = config::Base { phys_cpu_ids: Some(ids.iter().map(|&n| n as usize).collect()) };
    let crate_config = config::AxVMCrateConfig { base };

    let start = bench_now();
    let fdt = Fdt::from_bytes(host).unwrap();
    took[0] = bench_now() - start;
    let start = bench_now();
    let list = given::device::find_all_passthrough_devices(&mut config, &fdt);
    took[1] = bench_now() - start;
    let start = bench_now();
    let guest = given::create::crate_guest_fdt(&fdt, &list, &crate_config);
    took[2] = bench_now() - start;

    // all_nodes is called three times, and one of them is cloned again into the cache.
    let start = bench_now();
    for k in 0..3 {
        let all: Vec<Node> = fdt.all_nodes().collect();
        if k == 0 {
            std::hint::black_box(all.clone());
        }
        std::hint::black_box(all);
    }
    took[3] = bench_now() - start;

    let text: Vec<u8> = list.iter().flat_map(|p| p.bytes().chain([0])).collect();
    out[..text.len()].copy_from_slice(&text);
    out[text.len()..text.len() + guest.len()].copy_from_slice(&guest);
    unsafe { *listed = text.len() };
    guest.len()
}
