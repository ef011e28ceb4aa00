//! What `objdump -d --no-show-raw-insn` prints: functions, and their instructions.

/// What objdump prints for bytes that are no instruction.
const NO_INSTRUCTION: &str = "(bad)";
/// What may stand before `div` in the name of an instruction: signed, of the floating point stack, of vectors.
const FRONTS: [&str; 5] = ["", "i", "f", "fi", "v"];
/// The remainders of the floating point stack.
const REMAINDER: &str = "fprem";

#[derive(PartialEq, Eq, Debug)]
pub struct Function {
    pub symbol: String,
    pub instructions: usize,
    /// The instructions that divide, and what is none, behind which a division could hide.
    pub faults: Vec<String>,
}

/// The functions, one after the other, of all members of an archive.
pub fn read(text: &str) -> Vec<Function> {
    let mut functions = Vec::new();
    for line in text.lines() {
        if let Some(symbol) = symbol(line) {
            functions.push(Function::new(symbol));
        } else if let Some(instruction) = instruction(line) {
            if functions.is_empty() {
                functions.push(Function::new("code without a symbol"));
            }
            functions.last_mut().expect("one was pushed").note(instruction);
        }
    }
    functions
}

impl Function {
    fn new(symbol: &str) -> Function {
        Function { symbol: symbol.to_string(), instructions: 0, faults: Vec::new() }
    }

    fn note(&mut self, instruction: &str) {
        self.instructions += 1;
        // Each word is looked at, so that no prefix hides the name; an operand is never such a word.
        if instruction.split_whitespace().any(|word| is_division(word) || word == NO_INSTRUCTION) {
            self.faults.push(instruction.split_whitespace().collect::<Vec<_>>().join(" "));
        }
    }
}

/// Of a line as `0000000000000010 <cdrom_judge>:`.
fn symbol(line: &str) -> Option<&str> {
    let (address, rest) = line.split_once(" <")?;
    rest.strip_suffix(">:").filter(|_| is_hexadecimal(address))
}

/// Of a line as `   4:`, a tab and `mov    %edi,%eax`.
fn instruction(line: &str) -> Option<&str> {
    let (address, text) = line.split_once(":\t")?;
    Some(text.trim()).filter(|_| is_hexadecimal(address.trim_start()))
}

fn is_hexadecimal(text: &str) -> bool {
    !text.is_empty() && text.bytes().all(|byte| byte.is_ascii_hexdigit())
}

fn is_division(word: &str) -> bool {
    let divides = |front: &str| word.strip_prefix(front).is_some_and(|rest| rest.starts_with("div"));
    FRONTS.iter().any(|front| divides(front)) || word.starts_with(REMAINDER)
}

#[cfg(test)]
mod tests {
    use super::*;

    const PRINTED: &str = "In archive libcdrom.a:\n\njudge.o:     file format elf64-x86-64\n\n\n\
        Disassembly of section .text:\n\n\
        0000000000000000 <cdrom_judge>:\n   0:\tendbr64\n   4:\tmov    %edi,%eax\n   6:\txor    %edx,%edx\n\
        \x20  8:\tdiv    %esi\n   a:\tret\n\t...\n\n\
        0000000000000010 <div_by>:\n  10:\tcall   20 <idiv+0x10>\n\
        \x20 15:\tlea    0x0(%rip),%rax        # 1c <div>\n\n\
        other.o:     file format elf64-x86-64\n\n\nDisassembly of section .text.hot:\n\n\
        0000000000000000 <cdrom_next_address>:\n   0:\tdata16 cs nopw 0x0(%rax,%rax,1)\n\
        \x20  b:\tnotrack jmp *%rax\n   d:\t(bad)\n";

    #[test]
    fn functions_of_all_members() {
        let functions = read(PRINTED);
        let told: Vec<_> = functions.iter().map(|function| (function.symbol.as_str(), function.instructions)).collect();
        assert_eq!(told, [("cdrom_judge", 5), ("div_by", 2), ("cdrom_next_address", 3)]);
    }

    #[test]
    fn faults_with_their_text() {
        let functions = read(PRINTED);
        assert_eq!(functions[0].faults, ["div %esi"]);
        assert_eq!(functions[1].faults, [""; 0], "symbols are not instructions");
        assert_eq!(functions[2].faults, ["(bad)"]);
    }

    #[test]
    fn code_without_a_symbol_is_looked_at() {
        assert_eq!(read("   0:\tidivq  0x8(%rsp)\n")[0].faults, ["idivq 0x8(%rsp)"]);
    }

    #[test]
    fn all_divisions_behind_all_prefixes() {
        let all =
            "div divb divw divl divq idiv idivb idivw idivl idivq divss divsd divps divpd vdivss vdivsd vdivps vdivpd \
            vdivph fdiv fdivr fdivp fdivrp fdivs fdivrl fidiv fidivr fidivs fidivrl fprem fprem1";
        let prefixes = ["", "lock ", "rep ", "repnz ", "notrack ", "data16 ", "data16 rex.W ", "{evex} ", "gs "];
        let lines = |name: &str| prefixes.map(|prefix| format!("   0:\t{prefix}{name}   %ecx\n"));
        for line in all.split_whitespace().flat_map(lines) {
            assert_eq!(read(&line)[0].faults.len(), 1, "{line}");
        }
    }

    #[test]
    fn other_instructions_are_none() {
        for name in
            ["mov", "imul", "mul", "shr", "sar", "and", "cvtsi2sd", "vpand", "fild", "fist", "vmovd", "cdq", "ud2"]
        {
            assert_eq!(read(&format!("   0:\t{name}   %eax,%edx\n"))[0].faults, [""; 0], "{name}");
        }
    }
}
