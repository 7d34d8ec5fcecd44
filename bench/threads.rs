//! Measures growing a net in two threads beside one, by the Rust crate, on the bench's nets: threads [MOST [FAMILY]]
//! Prints lines as bench does. The times are elapsed ones: the processor time of two threads would count both.
use niqastul::{Net, STRIDE};
use std::ffi::{c_char, c_int, CStr};
use std::time::Instant;

const ROUNDS: usize = 7;
const LONG_ROUNDS: usize = 3;
const LONG_LIST: usize = 4_000_000;

// bench/nets.h
#[repr(C)]
struct CNet {
    vertices: usize,
    edges: usize,
    list: *mut u32,
    order: *mut u32,
}

#[repr(C)]
struct Family {
    name: *const c_char,
    make: extern "C" fn(usize) -> CNet,
    shuffled: c_int,
}

#[link(name = "nets", kind = "static")]
extern "C" {
    static family_count: usize;
    #[link_name = "families"]
    static FAMILIES: [Family; 0];
    fn make_net(family: *const Family, vertices: usize) -> CNet;
    fn free_net(net: *mut CNet);
}

/// Milliseconds to grow a net in so many threads, the net, and where its forest moved.
fn grow(vertices: usize, edges: &[u32], threads: usize) -> (f64, (Net, Option<u32>)) {
    let began = Instant::now();
    let mut net = Net::new(vertices).unwrap();
    let moved = net.add_in_threads(edges, threads).unwrap();
    (began.elapsed().as_secs_f64() * 1e3, (net, moved))
}

fn measure(name: &str, vertices: usize, edges: &[u32]) {
    let (mut one, mut two) = (f64::INFINITY, f64::INFINITY);
    let count = edges.len() / STRIDE;
    for _ in 0..if count > LONG_LIST { LONG_ROUNDS } else { ROUNDS } {
        let (took, net) = grow(vertices, edges, 1);
        let (took_two, net_two) = grow(vertices, edges, 2);
        assert!(net == net_two, "one thread and two disagree");
        (one, two) = (one.min(took), two.min(took_two));
    }
    println!("threads\t{name}\t{vertices}\t{count}\ttwo threads\t{two:.4}\tone thread\t{one:.4}");
}

fn main() {
    let words: Vec<String> = std::env::args().skip(1).collect();
    let most = words.first().map_or(1_000_000, |most| most.parse().expect("a number of vertices"));
    let only = words.get(1).map_or("", |name| name);
    for place in 0..unsafe { family_count } {
        // nets.c has as many families as it says
        let family = unsafe { FAMILIES.as_ptr().add(place) };
        let name = unsafe { CStr::from_ptr((*family).name) }.to_str().unwrap();
        // nets of so many if that is below the least size, as in bench.c
        for size in [most.min(100_000), 1_000_000] {
            if size <= most && name.starts_with(only) {
                let mut net = unsafe { make_net(family, size) };
                measure(name, net.vertices, unsafe { std::slice::from_raw_parts(net.list, STRIDE * net.edges) });
                unsafe { free_net(&mut net) };
            }
        }
    }
}
