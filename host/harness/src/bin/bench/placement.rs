//! Where the program's code lies in memory. Loops can take a third longer 16 bytes further on, so one program says
//! little: host/bench.sh builds several, each with so many bytes before all code, the proved library's and the peers'.

const PADDING: usize = match option_env!("BENCH_PADDING") {
    Some(text) => match usize::from_str_radix(text, 10) {
        Ok(padding) => padding,
        Err(_) => panic!("BENCH_PADDING is a number of bytes"),
    },
    None => 0,
};

// First of its object, which the linker takes first; retained though nothing refers to it.
std::arch::global_asm!(
    ".pushsection .text.placement, \"axR\", %progbits",
    ".skip {padding}",
    ".popsection",
    padding = const PADDING,
);
