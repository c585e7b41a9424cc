#!/bin/bash
# The library and ffmpeg: frames that ffmpeg made, read by the library, and the library's frames, read by ffmpeg. Where the two
# disagree, the line says which rule of the paper ffmpeg does not keep; a finding that changes fails as a disagreement does.
# tests/ffmpeg.sh [--if-there]: with the option a machine without Debian 12's ffmpeg, whose findings these are, passes untried; else
# ffmpeg is installed, and any version tried.
set -u
if [ "${1:-}" = --if-there ] && ! { command -v ffprobe && ffmpeg -version | grep '^ffmpeg version 5\.1\.'; } >/dev/null 2>&1; then
    echo "ffmpeg: version 5.1 is not installed, so it was not tried"
    exit 0
fi
. "$(dirname "$0")/c/env.sh"
need ffmpeg ffmpeg || exit 1
need ffprobe ffmpeg || exit 1
build_library || exit 1
work=$(mktemp -d)
trap 'rm -rf "$work"' EXIT
$CC -std=c11 -O2 -Wall -Wextra -Werror -I"$top/include" "$top/tests/c/ffmpeg.c" "$LIBRARY" -o "$work/jobs" || exit 1
cd "$work" || exit 1
names=(1080/60/I 1080/50/I 720/60/P 720/50/P)
passed=0 failed=0

job() { $RUN ./jobs "$@"; }

# expect SUBJECT WANTED GOT WHY: one case, in one line
expect() {
    if [ "$2" = "$3" ]; then
        passed=$((passed + 1))
        echo "ffmpeg: $1: $3${4:+ ($4)}, as expected"
    else
        failed=$((failed + 1))
        echo "ffmpeg: $1: DIFFERS: '$3' where '$2' was expected"
    fi
}

# made FILE THREADS SIZE RATE PICTURES: a stream from ffmpeg's encoder and muxer, with our sound in the two stereo pairs that the
# muxer takes. The sound is hurried, since for 720 lines the muxer wants a whole frame's sound for each half.
made() {
    local raw=(-f s16le -ar 48000 -ac 2 -i)
    ffmpeg -nostdin -v quiet -y -f lavfi -i "testsrc2=size=$3:rate=$4,trim=end_frame=$5" "${raw[@]}" pair1 "${raw[@]}" pair2 \
        -map 0:v -map 1:a -map 2:a -af asetpts=PTS/100 -c:a pcm_s16le -c:v dvvideo -threads:v "$2" -pix_fmt yuv422p \
        -timecode 01:02:03:04 -f dv "$1"
}

# heard FILE: what ffmpeg's demuxer reads of a stream, into FILE.1 to FILE.4
heard() {
    rm -f "$1".?
    ffmpeg -nostdin -v quiet -y -i "$1" -map 0:a:0 -c copy -f s16le "$1.1" -map 0:a:1 -c copy -f s16le "$1.2" \
        -map 0:a:2 -c copy -f s16le "$1.3" -map 0:a:3 -c copy -f s16le "$1.4"
}

# found SYSTEM FILE: what the library says of the frames, like ones together
found() { job find "$1" <"$2" | uniq -c | sed 's/^ *//; s/ / frames: /'; }

ffmpeg -version | sed -n '1s/ Copyright.*//p'

# ---- frames that ffmpeg made: five of each system, in 720 lines from ten halves
job sound 1 19200 >pair1
job sound 2 19200 >pair2
made made0 1 1280x1080 30000/1001 5
made made1 1 1440x1080 25 5
made made2 1 960x720 60000/1001 10
made made3 1 960x720 50 10
made threads2 2 960x720 60000/1001 10
made threads3 2 960x720 50 10

all_24='24 24 24 24 24 24 24 24' all_13='13 13 13 13 13 13 13 13'
in_place="5 frames: 0 blocks misplaced; refusals: check 0, audio $all_24, replacing $all_24, time 26"
packs='24: LF is 1, which table 19 reserves; 26: SSYB 4 is a time code pack, where table 10 has the binary group'
for s in 0 1 2 3; do
    expect "made by ffmpeg, ${names[s]}" "$in_place" "$(found $s made$s)" "$packs"
done
# out_of_place SYSTEM BLOCKS: the same by two threads
out_of_place() {
    local blocks="$2 blocks misplaced from DIF channel 2 sequence 0 place 0 on, $2 with fault 13"
    expect "made by two threads of ffmpeg, ${names[$1]}" \
        "5 frames: $blocks; refusals: check 13, audio $all_13, replacing $all_13, time 13" \
        "$(found "$1" "threads$1")" 'it names both halves DIF channels 0 and 1'
}
out_of_place 2 3000
out_of_place 3 3600

# ---- the same, with LF 0 and binary groups: the sound that ffmpeg was given, and its time code
# mended SYSTEM HALVES AUDIO FRAMES SOUND WHY: AUDIO the refusals of audio channels 5 to 8, read or replaced, FRAMES the first byte of
# each time code
mended() {
    local refusals="check 0, audio 0 0 0 0 $3, replacing 0 0 0 0 $3, time 0"
    job mend "$1" <"made$1" >mended
    expect "made by ffmpeg and mended, ${names[$1]}" \
        "5 frames: 0 blocks misplaced; refusals: $refusals; $(printf '%s 83 82 C1, ' $4)$5" \
        "$(found "$1" mended); $(job listen "$1" "$2" <mended)" "$6"
}
mended 0 0 '24 24 24 24' '04 05 06 07 08' '0 of 32032 samples wrong, 0 unexplained' \
    'the sound that ffmpeg was given; it leaves audio channels 5 to 8 without AS'
mended 1 0 '24 24 24 24' '44 45 46 47 48' '0 of 38400 samples wrong, 0 unexplained' \
    'the same; bit 6 of the frames is arbitrary and answered 1'
mended 2 1 '0 0 0 0' '02 03 04 05 06' '0 of 64064 samples wrong, 0 unexplained' \
    'ffmpeg muxes by halves: audio channels 5 to 8 are what follows in 1 to 4'
mended 3 1 '0 0 0 0' '42 43 44 45 46' '74640 of 76800 samples wrong, 0 unexplained' \
    'from word to word of a block ffmpeg steps 45 samples, as at 60 Hz, where 9 blocks of 6 sequences make 54'

# replaced_in_mended SYSTEM LENGTH: a frame that is not of our writer takes new sound, which comes out as 9
replaced_in_mended() {
    job mend "$1" <"made$1" | job replace "$1" 3 0 >mended
    heard mended
    expect "made by ffmpeg, mended, audio channel 3 replaced, ${names[$1]}" '1 2 9 4' "$(job sides "$2" mended.1 mended.2)" \
        "the two pairs that ffmpeg was given, with the new sound in its place, all $((4 * $2)) samples equal"
}
replaced_in_mended 0 8008
replaced_in_mended 1 9600

heard made3
expect "made by ffmpeg and read by ffmpeg, ${names[3]}" '11640 of 76800 samples wrong, 0 unexplained' \
    "$(job own made3.1 made3.2 made3.3 made3.4)" 'with that step it has places for 1629 of 1920 samples, and 0 for the other 291'

# ---- the spare bits of ffmpeg's IDs, and of ours
# spare_bits FRAMES SEQUENCES LOW HIGH: LOW the arbitrary bits of header and subcode, HIGH those of the other sections
spare_bits() {
    local s=$(($1 * $2 * 4))
    echo "header $3 and 7 in $s; subcode $3 and 7 in $((2 * s)); VAUX $4 and 7 in $((3 * s)); audio $4 and 7 in $((9 * s));" \
        "video $4 and 7 in $((135 * s))"
}
for s in 0 1 2 3; do
    n=$((s % 2 ? 12 : 10))
    expect "arbitrary and reserved bits of IDs made by ffmpeg, ${names[s]}" "$(spare_bits 5 $n 15 6)" "$(job spare $s <made$s)" \
        'it writes 0110 in VAUX, audio and video, where our writer has ones'
    job write $s 0 $((s % 2 ? 1920 : 1600)) >ours
    expect "arbitrary and reserved bits of our IDs, ${names[s]}" "$(spare_bits 1 $n 15 15)" "$(job spare $s <ours)"
done

# ---- ffmpeg's macroblocks in our frames: it decodes the same pictures, so the slots that carry none are those that it leaves out
decoded() { ffmpeg -nostdin -v quiet -i "$1" -map 0:v -frames:v "$2" -f framemd5 - | grep -v '^#'; }
for s in 0 1 2 3; do
    job carry "$s" <"made$s" >carried
    number=$((s < 2 ? 1 : 2))
    wanted=$(decoded "made$s" "$number") got=$(decoded carried "$number")
    expect "made by ffmpeg, carried by number into our frame, ${names[s]}" "$number pictures the same" \
        "$(wc -l <<<"$got") pictures $([ -n "$got" ] && [ "$wanted" = "$got" ] && echo the same || echo not the same)"
done

# ---- our frames: whether ffmpeg knows them by their content, and the time code, which it wants in a reserved place
# seen FILE: codec, size and rate of the picture, codec and sides of the sound, the format, the time code
seen() {
    ffprobe -v quiet -of csv=p=0 \
        -show_entries format=format_name:format_tags=timecode:stream=codec_name,width,height,r_frame_rate,channels "$1" |
        sed 's,\,0/0$,,' | uniq -c | awk '{ printf("%s%s%s", (NR > 1 ? ", " : ""), ($1 > 1 ? $1 " x " : ""), $2) }'
}
counts=(1600 1920 1600 1920) pictures=(1280,1080,30000/1001 1440,1080,25/1 960,720,60000/1001 960,720,50/1) frames=(07 07 14 14)
for s in 0 1 2 3; do
    job write "$s" 0 "${counts[s]}" "${counts[s]}" >ours
    cp ours moved
    # the pack of SSYB 3 in SSYB 0 as well, in the first SC0
    dd if=ours bs=1 skip=110 count=5 status=none | dd of=moved bs=1 seek=86 conv=notrunc status=none
    known="dvvideo,${pictures[s]}, 4 x pcm_s16le,2, dv"
    expect "our frames, ${names[s]}" "$known; $known,12:34:56:${frames[s]}" "$(seen ours); $(seen moved)" \
        'time code only once SSYB 0 has it too, which table 10 reserves'
done

# ---- our sound, read by ffmpeg: its four stereo streams side by side
read_back() {
    local s=$1 count sum=0
    shift
    for count in "$@"; do sum=$((sum + count)); done
    job write "$s" 0 "$@" >ours
    heard ours
    expect "our sound, ${names[s]}, frames of $*" "1 2 3 4 5 6 7 8" "$(job sides "$sum" ours.1 ours.2 ours.3 ours.4)" \
        "the audio channels that come out left and right of streams 1 to 4, all $((8 * sum)) samples equal"
}
read_back 0 1600 1600 1600
read_back 0 1602 1602 1602
read_back 0 1600 1602 1602 1602 1602
read_back 1 1920 1920 1920
read_back 2 1600 1600 1600
read_back 2 1602 1602 1602
read_back 2 1600 1602 1602 1602 1602
job write 3 0 1920 1920 1920 1920 >ours
heard ours
expect "our sound, ${names[3]}, 4 frames" '59840 of 61440 samples wrong, 0 unexplained' \
    "$(job strides 0 ours.1 ours.2 ours.3 ours.4)" 'ffmpeg takes the 60 Hz step of 45 for 54 again'

# ---- the same with one audio channel replaced by sound of its own, which comes out as 9
# replaced_back SYSTEM AUDIO_CHANNEL COUNT...
replaced_back() {
    local s=$1 c=$2 count sum=0
    shift 2
    for count in "$@"; do sum=$((sum + count)); done
    job write "$s" 0 "$@" | job replace "$s" "$c" 0 >ours
    heard ours
    expect "our sound, audio channel $c replaced, ${names[s]}, frames of $*" "$(echo 1 2 3 4 5 6 7 8 | tr "$c" 9)" \
        "$(job sides "$sum" ours.1 ours.2 ours.3 ours.4)" "the new sound in its place, all $((8 * sum)) samples equal"
}
for c in 1 2 3 4 5 6 7 8; do replaced_back 0 "$c" 1600 1602 1602 1602 1602; done
replaced_back 1 3 1920 1920 1920
replaced_back 1 8 1920 1920 1920
replaced_back 2 4 1600 1602 1602 1602 1602
replaced_back 2 5 1602 1602 1602
job write 3 0 1920 1920 1920 1920 | job replace 3 6 0 >ours
heard ours
expect "our sound, audio channel 6 replaced, ${names[3]}, 4 frames" '59840 of 61440 samples wrong, 0 unexplained' \
    "$(job strides 6 ours.1 ours.2 ours.3 ours.4)" 'the new sound in its place, by the same step of 45'

# ---- lost samples, and an audio block overwritten with 55h: DIF channel 0, sequence 0, place 6
job write 0 100 1600 >ours
heard ours
expect "every 100th sample lost, ${names[0]}" \
    '12672 equal, 128 lost where ffmpeg has 0, 0 lost where it has a level, 0 different, dv100_read_audio has 128 lost' \
    "$(job beside 0 1600 ours.1 ours.2 ours.3 ours.4 <ours)" 'ffmpeg turns 8000h into silence'
job write 0 0 1600 | job replace 0 3 100 >ours
heard ours
expect "audio channel 3 replaced, every 100th sample lost, ${names[0]}" \
    '12784 equal, 16 lost where ffmpeg has 0, 0 lost where it has a level, 0 different, dv100_read_audio has 16 lost' \
    "$(job beside 0 1600 ours.1 ours.2 ours.3 ours.4 <ours)" 'silence again, where the new sound has 8000h'
job write 0 0 1600 >ours
head -c 80 /dev/zero | tr '\0' U | dd of=ours bs=80 seek=6 conv=notrunc status=none
heard ours
expect "an audio block overwritten, ${names[0]}" \
    '12764 equal, 0 lost where ffmpeg has 0, 36 lost where it has a level, 0 different, dv100_read_audio refuses with 12' \
    "$(job beside 0 1600 ours.1 ours.2 ours.3 ours.4 <ours)" 'ffmpeg goes by the place and hands out what stands there'

echo "frames of others: $passed cases passed, $failed failed"
[ "$failed" -eq 0 ]
