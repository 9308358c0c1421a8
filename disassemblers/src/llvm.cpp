// LLVM's disassembler, for ARMv7-A with all that DDI 0406C has.
#include "disassembler.h"
#include <cstdlib>
#include <cstring>
#include <llvm/MC/MCAsmInfo.h>
#include <llvm/MC/MCContext.h>
#include <llvm/MC/MCDisassembler/MCDisassembler.h>
#include <llvm/MC/MCInst.h>
#include <llvm/MC/MCInstPrinter.h>
#include <llvm/MC/MCInstrInfo.h>
#include <llvm/MC/MCRegisterInfo.h>
#include <llvm/MC/MCSubtargetInfo.h>
#include <llvm/MC/TargetRegistry.h>
#include <llvm/Support/raw_ostream.h>

extern "C" {
void LLVMInitializeARMTargetInfo();
void LLVMInitializeARMTargetMC();
void LLVMInitializeARMDisassembler();
}

namespace {

struct Llvm : Disassembler {
    std::unique_ptr<llvm::MCRegisterInfo> registers;
    std::unique_ptr<llvm::MCAsmInfo> assembly;
    std::unique_ptr<llvm::MCInstrInfo> instructions;
    std::unique_ptr<llvm::MCSubtargetInfo> features;
    std::unique_ptr<llvm::MCContext> context;
    std::unique_ptr<llvm::MCDisassembler> disassembler;
    std::unique_ptr<llvm::MCInstPrinter> printer;
    llvm::MCDisassembler::DecodeStatus status = llvm::MCDisassembler::Fail;
    std::string line;

    Llvm() {
        LLVMInitializeARMTargetInfo();
        LLVMInitializeARMTargetMC();
        LLVMInitializeARMDisassembler();
        const std::string triple = "armv7a-none-eabi";
        std::string error;
        const llvm::Target *target = llvm::TargetRegistry::lookupTarget(triple, error);
        if (!target) {
            llvm::errs() << error << '\n';
            exit(2);
        }
        registers.reset(target->createMCRegInfo(triple));
        assembly.reset(target->createMCAsmInfo(*registers, triple, llvm::MCTargetOptions()));
        instructions.reset(target->createMCInstrInfo());
        features.reset(target->createMCSubtargetInfo(triple, "", "+v7,+hwdiv-arm,+virtualization,+trustzone,+mp,+neon,+dsp,+db"));
        context = std::make_unique<llvm::MCContext>(llvm::Triple(triple), assembly.get(), registers.get(), features.get());
        disassembler.reset(target->createMCDisassembler(*features, *context));
        printer.reset(target->createMCInstPrinter(llvm::Triple(triple), 0, *assembly, *instructions, *registers));
    }

    const std::string &text(uint32_t word) override {
        uint8_t bytes[4];
        memcpy(bytes, &word, sizeof bytes);
        llvm::MCInst instruction;
        uint64_t size;
        line.clear();
        status = disassembler->getInstruction(instruction, size, bytes, 0, llvm::nulls());
        if (status == llvm::MCDisassembler::Fail) return line;
        llvm::raw_string_ostream stream(line);
        printer->printInst(&instruction, 0, "", *features, stream);
        stream.flush();
        return line;
    }

    bool marked() const override { return status == llvm::MCDisassembler::SoftFail; }
};

}

std::unique_ptr<Disassembler> llvm14() { return std::make_unique<Llvm>(); }
