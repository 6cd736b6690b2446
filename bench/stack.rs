//! How deep a call goes into its stack: it is made on an area that was painted before, and the paint that is left is counted.
use crate::c_side::CSide;
use crate::once;
use std::arch::asm;

const AREA: usize = 1 << 20;
const PAINT: u8 = 0xa5;

type Work<'a> = &'a mut dyn FnMut();

extern "C" fn enter(work: &mut Work) {
    work();
}

/// How many bytes of a stack of its own the work writes over, from the first to the deepest.
pub fn depth(mut work: Work) -> usize {
    let mut area = vec![PAINT; AREA];
    let top = (area.as_mut_ptr() as usize + AREA) & !15;
    unsafe {
        asm!(
            "mov r12, rsp",
            "mov rsp, {top}",
            "call {enter}",
            "mov rsp, r12",
            top = in(reg) top,
            enter = sym enter,
            in("rdi") &raw mut work,
            out("r12") _,
            clobber_abi("C"),
        );
    }
    AREA - area.iter().take_while(|byte| **byte == PAINT).count()
}

pub fn all() {
    for named in once::all() {
        println!("{:>7} {}", CSide::new(&(named.case)()).depth(), named.name);
    }
}
