// libopcodes, of GNU binutils: all that it knows of A32. Its own choice of an architecture has either no virtualization or all of ARMv8.
#include "disassembler.h"
#define PACKAGE "disassemblers"
#define PACKAGE_VERSION "1"
#include <bfd.h>
#include <cstdarg>
#include <cstdio>
#include <cstring>
#include <dis-asm.h>

namespace {

// most that it prints is plain, or one string
int add(void *to, const char *format, va_list args) {
    char part[256];
    const char *text = part;
    if (!strchr(format, '%'))
        text = format;
    else if (!strcmp(format, "%s"))
        text = va_arg(args, const char *);
    else
        vsnprintf(part, sizeof part, format, args);
    static_cast<std::string *>(to)->append(text);
    return strlen(text);
}

int plain(void *to, const char *format, ...) {
    va_list args;
    va_start(args, format);
    int n = add(to, format, args);
    va_end(args);
    return n;
}

int styled(void *to, disassembler_style, const char *format, ...) {
    va_list args;
    va_start(args, format);
    int n = add(to, format, args);
    va_end(args);
    return n;
}

void address(bfd_vma at, disassemble_info *info) { info->fprintf_func(info->stream, "0x%lx", static_cast<unsigned long>(at)); }

struct Binutils : Disassembler {
    disassemble_info info;
    disassembler_ftype print;
    bfd_byte bytes[4];
    std::string line;

    Binutils() {
        init_disassemble_info(&info, &line, plain, styled);
        info.arch = bfd_arch_arm;
        info.mach = bfd_mach_arm_unknown;
        info.endian = info.endian_code = BFD_ENDIAN_LITTLE;
        info.buffer = bytes;
        info.buffer_vma = 0;
        info.buffer_length = sizeof bytes;
        info.print_address_func = address;
        disassemble_init_for_target(&info);
        print = disassembler(bfd_arch_arm, false, info.mach, nullptr);
    }

    const std::string &text(uint32_t word) override {
        memcpy(bytes, &word, sizeof bytes);
        line.clear();
        print(0, &info);
        if (line.find("<UNDEFINED>") != std::string::npos) line.clear();
        return line;
    }

    bool marked() const override { return line.find("UNPREDICTABLE") != std::string::npos; }
};

}

std::unique_ptr<Disassembler> binutils() { return std::make_unique<Binutils>(); }
