# shellcheck shell=sh
# The rules of a recording and the refusals in words. Read by ./spur.

# The rules to quote for a rule: the one itself, and before rule 11, which goes on from it, rule 10. The kinds are all of rule 8.
quoted_for() { # RULE
    case $1 in
    8?) echo 8 ;;
    11) echo 10 11 ;;
    *) echo "$1" ;;
    esac
}

# The rule as document 01 has it ("The judge"), to the letter.
sentence() { # RULE
    case $1 in
    1) echo "Spare bits are zero." ;;
    2) echo "The stamp's difference to the last one, modulo 2^32, is 1 to 2^31 (not judged on the first record)." ;;
    3) echo "SPV active: SP is right." ;;
    4) echo "No START while a transfer is open." ;;
    5) echo "No ACK without START while none is open." ;;
    6) echo "An attention cycle has both TM lines active." ;;
    7) echo "Any other START has a code with meaning." ;;
    8) echo "With RQST inactive one cycle before, a START needs a wave's START since the last reset (parking). With it active then, it must be active two cycles before too, and the START comes at least three cycles after the wave's last one." ;;
    9) echo "RQST becomes inactive only in a cycle with START." ;;
    10) echo "ARB at a START of a wave (RQST active one cycle before) isn't above the wave's last such ARB." ;;
    11) echo "Nor equal to it more often than the hold limit allows." ;;
    12) echo "An open transfer's age is at most 256." ;;
    13) echo "TM0 with neither START nor ACK, in an open block transfer, is a strobe: there are at most words less one, and exactly so at a successful ACK." ;;
    esac
}

# The kind of rule 8, as document 02 has it (wish 2); nothing for the other rules.
kind() { # RULE
    case $1 in
    8a) echo "parking with no owner since reset" ;;
    8b) echo "RQST active for too few cycles" ;;
    8c) echo "too soon after the wave's last START" ;;
    esac
}

# A number of cycles in words.
cycles() { # NUMBER
    case $1 in 1) echo "1 cycle" ;; *) echo "$1 cycles" ;; esac
}

# What was found at the breach, and what would have conformed: the two numbers are those of spurwhy, whose meaning depends on the rule.
what_would_conform() { # RULE FOUND BOUND
    case $1 in
    1) echo "The spare bits are $2, as a number; only $3 conforms." ;;
    2) echo "The stamp is $(cycles "$2") after that of the record before, modulo 2^32; at least 1, and at most $3." ;;
    3) echo "SP is $2 with SPV active; by the AD lines of this record it is to be $3." ;;
    4) echo "START $(cycles "$2") after the START of a transfer that is still open; it has to wait for the cycle behind that transfer's ACK." ;;
    5) echo "ACK without START, and no transfer is open; ACK has to come with START, as an attention cycle, or while a transfer is open." ;;
    6) echo "START with ACK, an attention cycle, and TM1 and TM0 aren't both active; both have to be." ;;
    7) echo "START for a block (TM0 inactive, AD1 active, AD0 inactive) with AD2 to AD5 all active, which is no length; at least one of the four has to be inactive." ;;
    8a) echo "START with RQST inactive one cycle before, and no wave's START since the reset, so that no owner is parked; RQST has to be active in the two cycles before." ;;
    8b) echo "START with RQST active one cycle before, and not two cycles before; it has to be active in both." ;;
    8c) echo "START $(cycles "$2") after the wave's last; at least $3." ;;
    9) echo "RQST, active in the record before, became inactive without START, in this cycle or in one that is missing; it has to stay active up to a cycle with START." ;;
    10) echo "START of the wave with ARB $2; at most $3, the ARB at the wave's last START." ;;
    11) echo "START number $2 of the wave with the same ARB; at most $3, the hold limit." ;;
    12) echo "The open transfer's age is $(cycles "$2"), since its START or, if it has had one, its last strobe; at most $3." ;;
    13) echo "The number of strobes of the open block transfer is $2; at most $3, and exactly $3 at a successful ACK." ;;
    esac
}

# Why something is refused, by document 01's number or that of document 02's wish 1.
refusal() { # NUMBER
    case $1 in
    1) echo "The recording ends within a record: its length isn't a multiple of 16 bytes." ;;
    2) echo "A mark has a slot or an interrupt number over 15." ;;
    3) echo "The hold limit isn't 1 to 16." ;;
    8) echo "The recording has more than 2^30 records." ;;
    9) echo "There are no marks, or more than 32." ;;
    10) echo "A mark isn't there: the recording conforms, and ends before it is reached." ;;
    esac
}
