"""Names and numbers of the System V gABI and the RISC-V ELF psABI, and the records of a file."""
import struct

FILE_HEADER = struct.Struct('<16sHHIQQQIHHHHHH')
PROGRAM_HEADER = struct.Struct('<IIQQQQQQ')
SECTION_HEADER = struct.Struct('<IIQQQQIIQQ')
SYMBOL = struct.Struct('<IBBHQQ')
ENTRY = struct.Struct('<QIIq')                  # of a RELA section: offset, type, symbol, addend

ELF, ARCHIVE, THIN = b'\x7fELF', b'!<arch>\n', b'!<thin>\n'
IDENT = b'\x7fELF\2\1\1'                        # 64 bits, little endian, version 1
REL, EXEC, RISCV = 1, 2, 243                    # e_type, e_machine
RVC, FLOAT_ABI, RVE, TSO = 1, 6, 8, 16          # e_flags

LOAD, TLS_SEGMENT, GNU_EH_FRAME, GNU_STACK = 1, 7, 0x6474e550, 0x6474e551
NULL, PROGBITS, SYMTAB, STRTAB, RELA, NOTE, NOBITS, REL_SECTION = 0, 1, 2, 3, 4, 7, 8, 9
INIT_ARRAY, FINI_ARRAY, PREINIT_ARRAY, GROUP, SYMTAB_SHNDX = 14, 15, 16, 17, 18
WRITE, ALLOC, EXECINSTR, MERGE, STRINGS, INFO_LINK, LINK_ORDER, IN_GROUP, TLS = 1, 2, 4, 0x10, 0x20, 0x40, 0x80, 0x200, 0x400
COMPRESSED, RETAIN, EXCLUDE = 0x800, 0x200000, 0x80000000
COMDAT = 1

LOCAL, GLOBAL, WEAK, UNIQUE = 0, 1, 2, 10
NOTYPE, OBJECT, FUNC, SECTION, FILE, COMMON_TYPE, TLS_TYPE, IFUNC = 0, 1, 2, 3, 4, 5, 6, 10
UNDEF, RESERVED, ABS, COMMON, XINDEX = 0, 0xff00, 0xfff1, 0xfff2, 0xffff

# Relocation types
R_NONE, R_32, R_64 = 0, 1, 2
R_BRANCH, R_JAL, R_CALL, R_CALL_PLT, R_GOT_HI20, R_TLS_GOT_HI20, R_TLS_GD_HI20, R_PCREL_HI20, R_PCREL_LO12_I, R_PCREL_LO12_S = range(16, 26)
R_HI20, R_LO12_I, R_LO12_S, R_TPREL_HI20, R_TPREL_LO12_I, R_TPREL_LO12_S, R_TPREL_ADD = range(26, 33)
R_ADD8, R_ADD16, R_ADD32, R_ADD64, R_SUB8, R_SUB16, R_SUB32, R_SUB64 = range(33, 41)
R_ALIGN, R_RVC_BRANCH, R_RVC_JUMP = 43, 44, 45
R_RELAX, R_SUB6, R_SET6, R_SET8, R_SET16, R_SET32, R_32_PCREL = range(51, 58)
R_PLT32, R_SET_ULEB128, R_SUB_ULEB128 = 59, 60, 61

# The bytes of each type's place. Those of R_ALIGN are its addend; a ULEB128 number is as long as its bytes say.
WIDTHS = {R_NONE: 0, R_32: 4, R_64: 8, R_CALL: 8, R_CALL_PLT: 8, R_TPREL_ADD: 0, R_ALIGN: None, R_RVC_BRANCH: 2, R_RVC_JUMP: 2, R_RELAX: 0,
          R_ADD8: 1, R_ADD16: 2, R_ADD32: 4, R_ADD64: 8, R_SUB8: 1, R_SUB16: 2, R_SUB32: 4, R_SUB64: 8,
          R_SUB6: 1, R_SET6: 1, R_SET8: 1, R_SET16: 2, R_SET32: 4, R_32_PCREL: 4, R_PLT32: 4, R_BRANCH: 4, R_JAL: 4}
WIDTHS.update({kind: 4 for kind in range(R_GOT_HI20, R_TPREL_ADD)})
