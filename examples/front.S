# The 84 bytes before the words of a small image: an ELF header and one program header, written out by hand.
# The image is linked flat (no other bytes than these and the words), so that the words begin at _start, at 0x10000.
    .section .text
    .byte 0x7f, 'E', 'L', 'F'
    .byte 1, 1, 1               # 32 bits, little endian, version 1
    .zero 9
    .2byte 2, 243               # an executable, for RISC-V
    .4byte 1
    .4byte _start               # entry
    .4byte 52, 0                # place of the program headers; no section headers
    .4byte 0                    # flags: no compressed words, integers in integer registers alone
    .2byte 52, 32, 1            # bytes of this header; bytes and count of the program headers
    .2byte 0, 0, 0

    .4byte 1                    # a segment to load
    .4byte 84, _start, _start   # place in the file, address, physical address
    .4byte etext - _start       # bytes in the file
    .4byte etext - _start       # bytes in memory
    .4byte 7, 4                 # readable, writable and executable; alignment
