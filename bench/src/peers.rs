//! Capstone's and LLVM's disassemblers, through their C interfaces. Both make a text of each word.

use std::ffi::{c_char, c_int, c_void};
use std::ptr;

#[repr(C)]
struct Insn {
    _opaque: [u8; 0],
}

unsafe extern "C" {
    fn cs_open(arch: c_int, mode: c_int, handle: *mut usize) -> c_int;
    fn cs_malloc(handle: usize) -> *mut Insn;
    fn cs_disasm_iter(
        handle: usize,
        code: *mut *const u8,
        size: *mut usize,
        address: *mut u64,
        insn: *mut Insn,
    ) -> bool;

    fn LLVMInitializeARMTargetInfo();
    fn LLVMInitializeARMTargetMC();
    fn LLVMInitializeARMDisassembler();
    fn LLVMCreateDisasm(
        triple: *const c_char,
        info: *mut c_void,
        tag: c_int,
        get_info: *const c_void,
        look_up: *const c_void,
    ) -> *mut c_void;
    fn LLVMDisasmInstruction(
        context: *mut c_void,
        bytes: *mut u8,
        count: u64,
        address: u64,
        text: *mut c_char,
        room: usize,
    ) -> usize;
}

pub struct Capstone {
    handle: usize,
    insn: *mut Insn,
}

impl Capstone {
    pub fn new() -> Capstone {
        const CS_ARCH_ARM: c_int = 0;
        const CS_MODE_ARM: c_int = 0;
        let mut handle = 0;
        // Safety: the handle is written where it is asked for, and is held by the one value that uses it.
        let insn = unsafe {
            assert_eq!(cs_open(CS_ARCH_ARM, CS_MODE_ARM, &mut handle), 0);
            cs_malloc(handle)
        };
        assert!(!insn.is_null());
        Capstone { handle, insn }
    }

    /// Whether the word has a text.
    pub fn text(&mut self, word: u32, mut address: u64) -> bool {
        let bytes = word.to_le_bytes();
        let (mut code, mut size) = (bytes.as_ptr(), bytes.len());
        // Safety: the code is as long as it is said to be, and `insn` is from `cs_malloc`.
        unsafe { cs_disasm_iter(self.handle, &mut code, &mut size, &mut address, self.insn) }
    }
}

pub struct Llvm {
    context: *mut c_void,
    text: [c_char; 128],
}

impl Llvm {
    pub fn new() -> Llvm {
        // Safety: the triple is a C string; the other arguments may be null.
        let context = unsafe {
            LLVMInitializeARMTargetInfo();
            LLVMInitializeARMTargetMC();
            LLVMInitializeARMDisassembler();
            LLVMCreateDisasm(
                c"armv7a-unknown-linux-gnueabi".as_ptr(),
                ptr::null_mut(),
                0,
                ptr::null(),
                ptr::null(),
            )
        };
        assert!(!context.is_null());
        Llvm {
            context,
            text: [0; 128],
        }
    }

    /// Whether the word has a text.
    pub fn text(&mut self, word: u32, address: u64) -> bool {
        let mut bytes = word.to_le_bytes();
        // Safety: bytes and text are as long as they are said to be.
        let read = unsafe {
            LLVMDisasmInstruction(
                self.context,
                bytes.as_mut_ptr(),
                bytes.len() as u64,
                address,
                self.text.as_mut_ptr(),
                self.text.len(),
            )
        };
        read != 0
    }
}
