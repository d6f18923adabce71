#!/bin/sh
# The sound files of the conformance cases, by other programs: sox 14.4.2, ffmpeg 5.1, libsndfile 1.2.0
# (python3-soundfile). Another version of a program may write other bytes around the same samples.
#
#     bench/waves.sh FOLDER
set -eu
cd "$1"
tones="synth 0.02 sine 500 sine 700 sine 300 sine 900 sine 450 sine 650 sine 350 sine 850"
sox -R -n -r 8000 -c 1 -b 8 wave-sox-8.wav synth 0.04 sine 500 gain -6
sox -R -n -r 8000 -c 2 -b 16 wave-sox-16.wav synth 0.04 sine 500 sine 300 gain -3
sox -R -n -r 8000 -c 2 -b 24 wave-sox-24.wav synth 0.03 sine 500 sine 300 gain -3
sox -R -n -r 8000 -c 8 -b 32 wave-sox-32.wav $tones gain -3
sox wave-sox-24.wav -t raw - | sox -t raw -r 8000 -c 2 -e signed -b 24 - -t wav - 2> note | cat > wave-sox-stream.wav
rm note
sox -R -n -r 8000 -c 1 -b 16 wave-sox-empty.wav synth 0.01 sine 500 trim 0 0
sox -R -n -r 8000 -c 1 -e a-law wave-sox-a-law.wav synth 0.01 sine 500
sox -R -n -r 8000 -c 1 -e float -b 32 wave-sox-float.wav synth 0.01 sine 500
sox -R -n -r 8000 -c 1 -e ms-adpcm wave-sox-adpcm.wav synth 0.01 sine 500
quiet="-hide_banner -loglevel error -y -bitexact"
ffmpeg $quiet -i wave-sox-24.wav -c:a pcm_s24le -write_bext 1 -metadata description=tape -metadata comment=odd wave-ffmpeg-bext.wav
ffmpeg $quiet -i wave-sox-32.wav -c:a pcm_s16le wave-ffmpeg-8-tracks.wav
ffmpeg $quiet -i wave-sox-16.wav -c:a pcm_s16le -rf64 always wave-ffmpeg-rf64.wav
ffmpeg $quiet -i wave-sox-16.wav -c:a pcm_s16le -f wav - | cat > wave-ffmpeg-stream.wav
ffmpeg $quiet -i wave-sox-16.wav -c:a pcm_u8 wave-ffmpeg-8.wav
/usr/bin/python3 - << 'PYTHON'
import soundfile

with soundfile.SoundFile("wave-sox-24.wav") as made:
    samples, rate, tracks = made.buffer_read(dtype="int32"), made.samplerate, made.channels
for name, form, kind in [("rf64", "RF64", "PCM_24"), ("wavex", "WAVEX", "PCM_32"), ("8", "WAV", "PCM_U8")]:
    with soundfile.SoundFile(f"wave-sndfile-{name}.wav", "w", rate, tracks, kind, format=form) as out:
        out.buffer_write(samples, dtype="int32")
PYTHON
