#!/bin/bash
# Boots the kernel of out/kernel and what mkinit.sh made, without KVM, and prints the console: tools/vm/vm.sh FOLDER SECONDS
# After SECONDS the machine is ended, as by a power cut.
here=$(cd "$(dirname "$0")" && pwd)
timeout "$2" qemu-system-x86_64 -accel tcg -cpu max -nographic -no-reboot -m 768 -kernel "$here"/out/kernel/boot/vmlinuz-* -initrd "$1/initrd" \
    -append "console=ttyS0 quiet panic=1 loglevel=3 nokaslr no_timer_check mitigations=off" </dev/null 2>&1 | sed -u -e 's/\r//g; s/\x1bc//g; s/\x1b\[[0-9;?]*[a-zA-Z]//g' -e '1,/Booting from ROM/d'
