#compdef uasdisk
# Completion of uasdisk for zsh, written by completions/write from the texts of help/.
_uasdisk() {
  local -a commands
  commands=(
    'replay:Reads a script from standard input and runs it on zeroed units'
    'trace:Runs a script as replay does, and prints each step with the bytes that it wrote'
    'work:Lets clients write and read in threads, and counts what they read'
    'decode:Reads lines of bytes from standard input and tells what each says'
    'make:Makes an image file of zeroed blocks'
    'info:Tells how many blocks an image file has, and the number of the last'
    'dump:Reads blocks of an image file by one READ, and prints their bytes'
    'fill:Fills blocks of an image file with a byte by one WRITE, and writes the file'
    'audit:Replays a saved log and audits each client’s account in it'
    'draw:Runs a script as replay does, and draws the run as a picture (SVG)'
    'capture:Runs a script as replay does, and writes the run to a file that Wireshark reads'
    'help:Print this message or the help of the given subcommand(s)'
    'serve:Serves an image as a disk over standard input and output, to any client of NBD'
    'usb:Is a USB disk for QEMU’s usb-redir over standard input and output'
    'prove:Builds the proved program, which later calls take'
    'many:Runs a command on each file of a folder as standard input'
    'completions:Prints what completes these words in a shell'
  )
  if (( CURRENT == 2 )); then
    _describe command commands
    return
  fi
  local command=$words[2]
  shift words
  (( CURRENT-- ))
  case $command in
    replay) _arguments '--bad[A block that is bad in every unit: 0 to 65535]:LBA:' '--tags[How many tags each client has, one of them for task management: 2 to 16, usually 16; 248 in all]:N:' '--json[Prints each line as a JSON object]' '(-h --help)'{-h,--help}'[Print help]' ':CLIENTS:' ':BLOCKS:' ;;
    trace) _arguments '--bad[A block that is bad in every unit: 0 to 65535]:LBA:' '--tags[How many tags each client has, one of them for task management: 2 to 16, usually 16; 248 in all]:N:' '--color[Colours: always, auto (on a terminal alone, as without this option) or never]:WHEN:(always auto never)' '--json[Prints each line as a JSON object]' '(-h --help)'{-h,--help}'[Print help]' ':CLIENTS:' ':BLOCKS:' ;;
    work) _arguments '--tags[How many tags each client has, one of them for task management: 2 to 16, usually 16; 248 in all]:N:' '--depth[How many commands each client has out at a time: 1 to 15, fewer than tags; usually 1]:D:' '--sync[Keep LOG while it grows, synced after each N steps, or at the end alone where N is 0: 0 to 4294967295]:N:' '(-h --help)'{-h,--help}'[Print help]' ':CLIENTS:' ':ROUNDS:' ':LOG:_files' ;;
    decode) _arguments '--color[Colours: always, auto (on a terminal alone, as without this option) or never]:WHEN:(always auto never)' '--json[Prints each line as a JSON object]' '(-h --help)'{-h,--help}'[Print help]' ;;
    make) _arguments '--force[Write over a file that is there]' '(-h --help)'{-h,--help}'[Print help]' ':FILE:_files' ':BLOCKS:' ;;
    info) _arguments '--json[Prints each line as a JSON object]' '(-h --help)'{-h,--help}'[Print help]' ':FILE:_files' ;;
    dump) _arguments '(-h --help)'{-h,--help}'[Print help]' ':FILE:_files' ':LBA:' ':COUNT:' ;;
    fill) _arguments '(-h --help)'{-h,--help}'[Print help]' ':FILE:_files' ':LBA:' ':COUNT:' ':BYTE:' ;;
    audit) _arguments '--head[Tell at which step of a log that was kept this checksum stands: 1 to 8 hexadecimal digits]:HEX:' '--json[Prints each line as a JSON object]' '(-h --help)'{-h,--help}'[Print help]' ':LOG:_files' ;;
    draw) _arguments '--bad[A block that is bad in every unit: 0 to 65535]:LBA:' '--tags[How many tags each client has, one of them for task management: 2 to 16, usually 16; 248 in all]:N:' '--page[Write a page (HTML) that shows the run step by step, in place of the picture]' '(-h --help)'{-h,--help}'[Print help]' ':CLIENTS:' ':BLOCKS:' ;;
    capture) _arguments '--bad[A block that is bad in every unit: 0 to 65535]:LBA:' '--tags[How many tags each client has, one of them for task management: 2 to 16, usually 16; 248 in all]:N:' '(-h --help)'{-h,--help}'[Print help]' ':CLIENTS:' ':BLOCKS:' ':FILE:_files' ;;
    help) _arguments ':COMMAND:(replay trace work decode make info dump fill audit draw capture serve usb prove many completions)' ;;
    serve) _arguments '--bad[A block that is bad: 0 to 4294967295]:LBA:' '--file[Changes nothing: blocks always stay in the file]' '(-h --help)'{-h,--help}'[Print help]' ':FILE:_files' ;;
    usb) _arguments '--read-only[Writes nothing, and says so to the guest]' '--serial[The first unit’s serial number, from which the others count on; else one by each file’s device and inode: 0 to 99999999]:N:' '--vendor[Who made it, as the guest is told: 1 to 8 printable characters]:NAME:' '--product[What it is, as the guest is told: 1 to 16 printable characters]:NAME:' '--block-size[The bytes of a block [possible values: 512, 4096]]:BYTES:' '--bad[A block that is bad, of each unit: 0 to 4294967295]:LBA:' '(-h --help)'{-h,--help}'[Print help]' ':FILE:_files' ;;
    prove) _arguments '(-h --help)'{-h,--help}'[Print help]' ':PROGRAM:(decode serve usb)' ;;
    many) _arguments '(-h --help)'{-h,--help}'[Print help]' ':FOLDER:_files' ':WORDS:(replay trace work decode make info dump fill audit draw capture)' ;;
    completions) _arguments '(-h --help)'{-h,--help}'[Print help]' ':SHELL:(bash zsh fish)' ;;
  esac
}
compdef _uasdisk uasdisk
