# Completion of ufstool in fish.
set -l messages read6 write6 read10 write10 unmap synchronize-cache flush test-unit-ready \
    request-sense read-capacity read-capacity-16 inquiry report-luns mode-sense mode-sense-6 \
    report-operations verify prefetch send-diagnostic nop hardware-reset link-reset data-out abort-task \
    abort-task-set clear-task-set reset-unit query-task query-task-set read-device-descriptor \
    read-unit-descriptor read-descriptor read-boot-lun-en write-boot-lun-en read-attribute \
    write-attribute read-flag set-flag clear-flag toggle-flag rpmb-key rpmb-write rpmb-read \
    rpmb-counter rpmb-result
set -l commands read6 write6 read10 write10 synchronize-cache flush test-unit-ready request-sense read-capacity \
    read-capacity-16 inquiry report-luns mode-sense mode-sense-6 report-operations verify prefetch send-diagnostic
set -l indexed read-descriptor read-attribute write-attribute read-flag set-flag clear-flag toggle-flag
set -l tasks abort-task abort-task-set clear-task-set reset-unit query-task query-task-set

complete -c ufstool -f
complete -c ufstool -n __fish_use_subcommand -a explain -d 'Say what a script and its output tell'
complete -c ufstool -n __fish_use_subcommand -a host -d 'Write a line of a script'
complete -c ufstool -n __fish_use_subcommand -a draw -d 'Draw the dies'
complete -c ufstool -l help -d 'Show help'
complete -c ufstool -n __fish_use_subcommand -l version -d 'Show the version'
complete -c ufstool -n '__fish_seen_subcommand_from explain draw' -F
complete -c ufstool -n '__fish_seen_subcommand_from draw' -l line -x -d 'Run the lines up to this one'
complete -c ufstool -n '__fish_seen_subcommand_from draw' -l svg -d 'Draw SVG'
complete -c ufstool -n "__fish_seen_subcommand_from host; and not __fish_seen_subcommand_from $messages" -a "$messages"
complete -c ufstool -n "__fish_seen_subcommand_from $messages" -l task -x -d 'The task tag'
complete -c ufstool -n "__fish_seen_subcommand_from $commands $tasks unmap data-out" -l unit -x -d 'The LUN'
complete -c ufstool -n "__fish_seen_subcommand_from $commands" -l expected -x -d 'How many bytes the host sends or has room for'
complete -c ufstool -n '__fish_seen_subcommand_from read6 write6 read10 write10 verify prefetch unmap rpmb-write rpmb-read' -l address -x -d 'The first block'
complete -c ufstool -n '__fish_seen_subcommand_from read6 write6 read10 write10 verify prefetch unmap rpmb-write rpmb-read' -l blocks -x -d 'How many blocks'
complete -c ufstool -n '__fish_seen_subcommand_from read10 write10' -l fua -d 'Set FUA'
complete -c ufstool -n '__fish_seen_subcommand_from verify' -l compare -d 'Set BYTCHK 01'
complete -c ufstool -n '__fish_seen_subcommand_from synchronize-cache flush' -l immediate -d 'Set IMMED'
complete -c ufstool -n '__fish_seen_subcommand_from request-sense inquiry report-luns read-capacity-16 mode-sense mode-sense-6 report-operations' -l allocation -x -d 'The allocation length'
complete -c ufstool -n '__fish_seen_subcommand_from inquiry mode-sense mode-sense-6' -l page -x -d 'The page, in decimal'
complete -c ufstool -n '__fish_seen_subcommand_from mode-sense mode-sense-6' -l subpage -x -d 'The subpage, in decimal'
complete -c ufstool -n '__fish_seen_subcommand_from mode-sense mode-sense-6' -l values -x -a 'current changeable default saved' -d 'Which values are asked for'
complete -c ufstool -n '__fish_seen_subcommand_from report-operations' -l code -x -d 'The operation code, in decimal'
complete -c ufstool -n '__fish_seen_subcommand_from report-operations' -l action -x -d 'The service action, in decimal'
complete -c ufstool -n '__fish_seen_subcommand_from report-operations' -l timeouts -d 'Set RCTD'
complete -c ufstool -n '__fish_seen_subcommand_from send-diagnostic' -l self-test -d 'Set SELFTEST'
complete -c ufstool -n '__fish_seen_subcommand_from report-luns' -l select -x -a '0 1 2' -d 'Which units are listed'
complete -c ufstool -n '__fish_seen_subcommand_from data-out' -l offset -x -d 'Where the data are in those of the command'
complete -c ufstool -n '__fish_seen_subcommand_from data-out' -l bytes -x -d 'How many bytes'
complete -c ufstool -n '__fish_seen_subcommand_from data-out rpmb-write' -l fill -x -d 'The byte, two hexadecimal digits'
complete -c ufstool -n '__fish_seen_subcommand_from abort-task query-task' -l meant -x -d 'The tag of the task that is meant'
complete -c ufstool -n '__fish_seen_subcommand_from read-device-descriptor read-unit-descriptor read-descriptor' -l length -x -d 'How many bytes of the descriptor'
complete -c ufstool -n '__fish_seen_subcommand_from read-unit-descriptor' -l index -x -d 'The index of the unit'
complete -c ufstool -n '__fish_seen_subcommand_from read-descriptor' -l descriptor -x -a 'DEVICE CONFIGURATION UNIT INTERCONNECT STRING GEOMETRY POWER' -d 'The descriptor'
complete -c ufstool -n "__fish_seen_subcommand_from $indexed" -l index -x -d 'The index, in decimal'
complete -c ufstool -n "__fish_seen_subcommand_from $indexed" -l selector -x -d 'The selector, in decimal'
complete -c ufstool -n '__fish_seen_subcommand_from write-boot-lun-en' -l value -x -a '0 1 2' -d 'The boot unit: none, A or B'
complete -c ufstool -n '__fish_seen_subcommand_from read-attribute write-attribute' -l attribute -x -a 'bBootLunEn bCurrentPowerMode bActiveICCLevel bOutOfOrderDataEn bBackgroundOpStatus bPurgeStatus bMaxDataInSize bMaxDataOutSize dDynCapNeeded bRefClkFreq bConfigDescrLock bMaxNumOfRTT wExceptionEventControl wExceptionEventStatus dSecondsPassed wContextConf bDeviceFFUStatus bPSAState dPSADataSize' -d 'The attribute'
complete -c ufstool -n '__fish_seen_subcommand_from write-attribute' -l value -x -d 'What the attribute is to be'
complete -c ufstool -n '__fish_seen_subcommand_from read-flag set-flag clear-flag toggle-flag' -l flag -x -a 'fDeviceInit fPermanentWPEn fPowerOnWPEn fBackgroundOpsEn fDeviceLifeSpanModeEn fPurgeEnable fPhyResourceRemoval fBusyRTC fPermanentlyDisableFwUpdate' -d 'The flag'
complete -c ufstool -n '__fish_seen_subcommand_from explain draw' -l image -d 'An image of dies'
complete -c ufstool -n '__fish_seen_subcommand_from explain' -l frames -d 'Frames in hexadecimal digits'
complete -c ufstool -n '__fish_seen_subcommand_from explain rpmb-key rpmb-write' -l key -x -d 'The key, 64 hexadecimal digits'
complete -c ufstool -n '__fish_seen_subcommand_from explain rpmb-key rpmb-write' -l key-file -r -F -d 'A file with the key'
complete -c ufstool -n '__fish_seen_subcommand_from rpmb-write' -l data -r -F -d 'A file with the blocks'
complete -c ufstool -n '__fish_seen_subcommand_from rpmb-key rpmb-write rpmb-read rpmb-counter rpmb-result' -l region -x -a '0 1 2 3' -d 'The RPMB region'
complete -c ufstool -n '__fish_seen_subcommand_from rpmb-write' -l counter -x -d 'The write counter'
complete -c ufstool -n '__fish_seen_subcommand_from rpmb-read rpmb-counter' -l nonce -x -d 'The nonce, 32 hexadecimal digits'
