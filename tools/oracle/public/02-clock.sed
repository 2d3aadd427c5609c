# One counter for the chip, counting down a cycle of 30,720, with an offset for each column of rates. PHASE is where it starts: no public
# description says in which phase a log meets it.
/const ENVELOPE_RATE_TABLE: /i\
static CLOCK: std::sync::atomic::AtomicU32 = std::sync::atomic::AtomicU32::new(0);\
pub(super) fn start() {\
    let phase = std::env::var("PHASE").map_or(0, |phase| phase.parse().unwrap());\
    CLOCK.store(phase, std::sync::atomic::Ordering::SeqCst);\
}\
pub(super) fn pass() {\
    let now = CLOCK.load(std::sync::atomic::Ordering::SeqCst);\
    CLOCK.store((now + 30_719) % 30_720, std::sync::atomic::Ordering::SeqCst);\
}\
pub(super) fn due(period: u16) -> bool {\
    let offset = if period % 3 == 0 { 1040 } else if period % 5 == 0 { 536 } else { 0 };\
    (CLOCK.load(std::sync::atomic::Ordering::SeqCst) + offset) % u32::from(period) == 0\
}
s/self\.tick_counter += 1;/return due(period);/
s/if self\.noise_tick_counter < period {/if !adsr::due(period) {/
s/let mut registers = \[0u8; 128\];/adsr::start(); &/
s/self\.every_other_sample = !self\.every_other_sample;/adsr::pass(); &/
