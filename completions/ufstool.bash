# Completion of ufstool in bash.
_ufstool_words() {
    local command='--unit --task --expected --help'
    case $1 in
    read6 | write6) echo "--address --blocks $command" ;;
    read10 | write10) echo "--address --blocks --fua $command" ;;
    synchronize-cache | flush) echo "--immediate $command" ;;
    verify) echo "--address --blocks --compare $command" ;;
    prefetch) echo "--address --blocks $command" ;;
    send-diagnostic) echo "--self-test $command" ;;
    request-sense | read-capacity-16) echo "--allocation $command" ;;
    inquiry) echo "--page --allocation $command" ;;
    mode-sense | mode-sense-6) echo "--page --subpage --values --allocation $command" ;;
    report-operations) echo "--code --action --timeouts --allocation $command" ;;
    report-luns) echo "--select --allocation $command" ;;
    test-unit-ready | read-capacity) echo "$command" ;;
    nop) echo '--task --help' ;;
    hardware-reset | link-reset) echo '--help' ;;
    data-out) echo '--unit --task --offset --bytes --fill --help' ;;
    unmap) echo '--address --blocks --unit --task --help' ;;
    abort-task | query-task) echo '--meant --unit --task --help' ;;
    abort-task-set | clear-task-set | reset-unit | query-task-set) echo '--unit --task --help' ;;
    read-device-descriptor) echo '--length --task --help' ;;
    read-unit-descriptor) echo '--index --length --task --help' ;;
    read-descriptor) echo '--descriptor --index --selector --length --task --help' ;;
    read-boot-lun-en) echo '--task --help' ;;
    write-boot-lun-en) echo '--value --task --help' ;;
    read-attribute) echo '--attribute --index --selector --task --help' ;;
    write-attribute) echo '--attribute --value --index --selector --task --help' ;;
    read-flag | set-flag | clear-flag | toggle-flag) echo '--flag --index --selector --task --help' ;;
    rpmb-key) echo '--key --key-file --region --task --help' ;;
    rpmb-write) echo '--address --counter --data --blocks --fill --key --key-file --region --task --help' ;;
    rpmb-read) echo '--address --blocks --nonce --region --task --help' ;;
    rpmb-counter) echo '--nonce --region --task --help' ;;
    rpmb-result) echo '--region --task --help' ;;
    esac
}

_ufstool() {
    local current=${COMP_WORDS[COMP_CWORD]} words=
    local messages='read6 write6 read10 write10 unmap synchronize-cache flush test-unit-ready request-sense read-capacity read-capacity-16 inquiry report-luns mode-sense mode-sense-6 report-operations verify prefetch send-diagnostic nop hardware-reset link-reset data-out abort-task abort-task-set clear-task-set reset-unit query-task query-task-set read-device-descriptor read-unit-descriptor read-descriptor read-boot-lun-en write-boot-lun-en read-attribute write-attribute read-flag set-flag clear-flag toggle-flag rpmb-key rpmb-write rpmb-read rpmb-counter rpmb-result'
    COMPREPLY=()
    if [ "$COMP_CWORD" -eq 1 ]; then
        words='explain host draw help --help --version'
    elif [ "${COMP_WORDS[1]}" = host ] && [ "$COMP_CWORD" -eq 2 ]; then
        words="$messages --help"
    elif [ "${COMP_WORDS[1]}" = host ] && [ "${COMP_WORDS[COMP_CWORD - 1]}" = --flag ]; then
        words='fDeviceInit fPermanentWPEn fPowerOnWPEn fBackgroundOpsEn fDeviceLifeSpanModeEn fPurgeEnable fPhyResourceRemoval fBusyRTC fPermanentlyDisableFwUpdate'
    elif [ "${COMP_WORDS[1]}" = host ] && [ "${COMP_WORDS[COMP_CWORD - 1]}" = --attribute ]; then
        words='bBootLunEn bCurrentPowerMode bActiveICCLevel bOutOfOrderDataEn bBackgroundOpStatus bPurgeStatus bMaxDataInSize bMaxDataOutSize dDynCapNeeded bRefClkFreq bConfigDescrLock bMaxNumOfRTT wExceptionEventControl wExceptionEventStatus dSecondsPassed wContextConf bDeviceFFUStatus bPSAState dPSADataSize'
    elif [ "${COMP_WORDS[1]}" = host ] && [ "${COMP_WORDS[COMP_CWORD - 1]}" = --descriptor ]; then
        words='DEVICE CONFIGURATION UNIT INTERCONNECT STRING GEOMETRY POWER'
    elif [ "${COMP_WORDS[1]}" = host ] && [ "${COMP_WORDS[COMP_CWORD - 1]}" = --values ]; then
        words='current changeable default saved'
    elif [ "${COMP_WORDS[1]}" = host ] && [ "${COMP_WORDS[COMP_CWORD - 1]}" = --region ]; then
        words='0 1 2 3'
    elif [ "${COMP_WORDS[1]}" = host ]; then
        words=$(_ufstool_words "${COMP_WORDS[2]}")
    elif [[ $current == -* ]]; then
        words='--help'
        if [ "${COMP_WORDS[1]}" = draw ]; then
            words='--line --image --svg --help'
        elif [ "${COMP_WORDS[1]}" = explain ]; then
            words='--frames --image --key --key-file --help'
        fi
    else
        compopt -o filenames 2>/dev/null
        COMPREPLY=($(compgen -f -- "$current"))
        return
    fi
    COMPREPLY=($(compgen -W "$words" -- "$current"))
}
complete -F _ufstool ufstool
