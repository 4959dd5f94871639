"""Telephones that are driven by their own commands: each is started in its own namespace."""
import json
import math
import os
import pathlib
import shutil
import socket
import struct
import subprocess
import time
import wave

from telephones.network import NET, SERVER, inside


class Phone:
    """A user's telephone. What it can't do raises Lacks."""

    kind = None
    # What it can do besides calls with G.711.
    has = frozenset()
    # Whether its microphone yields nothing here.
    is_mute = False

    def __init__(self, user, address, tone, folder, **wishes):
        self.user, self.address, self.tone, self.wishes = user, address, tone, wishes
        self.folder = pathlib.Path(folder) / f"{self.kind}-{user}"
        self.process = None

    def __str__(self):
        return self.kind

    def clear(self):
        shutil.rmtree(self.folder, ignore_errors=True)
        self.folder.mkdir(parents=True)

    def spawn(self, words, **how):
        log = open(self.folder / "log", "wb")
        environment = {**os.environ, "HOME": str(self.folder), "LC_ALL": "C"}
        self.process = subprocess.Popen(inside(self.user, words), cwd=self.folder, stdout=log, stderr=subprocess.STDOUT, env=environment, **how)

    def write_tone(self):
        with wave.open(str(self.folder / "tone.wav"), "wb") as file:
            file.setnchannels(1)
            file.setsampwidth(2)
            file.setframerate(8000)
            file.writeframes(b"".join(struct.pack("<h", int(8000 * math.sin(2 * math.pi * self.tone * it / 8000))) for it in range(8000 * 60)))

    def end(self):
        if self.process:
            self.process.kill()
            self.process.wait()


class Baresip(Phone):
    kind = "baresip"
    has = frozenset(("Opus", "SRTP"))
    port = 4444

    def start(self):
        self.clear()
        self.write_tone()
        codecs = self.wishes.get("codecs", "PCMA,PCMU")
        secure = ";mediaenc=srtp-mand" if self.wishes.get("srtp") else ""
        (self.folder / "accounts").write_text(f"<sip:{self.user}@{SERVER};transport=udp>;regint=600;audio_codecs={codecs}{secure}\n")
        (self.folder / "contacts").write_text("")
        modules = ("g711", "opus", "aubridge", "aufile", "srtp", "sndfile")
        (self.folder / "config").write_text(
            f"sip_listen {self.address}:5060\naudio_source aufile,{self.folder}/tone.wav\naudio_player aubridge,nil\nausrc_srate 8000\nauplay_srate 8000\n"
            "ausrc_channels 1\nauplay_channels 1\nrtp_ports 20000-20100\ncall_max_calls 4\nmodule_path /usr/lib/baresip/modules\n"
            + "".join(f"module {it}.so\n" for it in modules) + "".join(f"module_app {it}.so\n" for it in ("account", "contact", "menu", "ctrl_tcp"))
            + f"ctrl_tcp_listen {self.address}:{self.port}\nsnd_path {self.folder}\n")
        self.spawn(["baresip", "-f", str(self.folder)], stdin=subprocess.DEVNULL)
        end = time.time() + 5
        while True:
            try:
                self.line = socket.create_connection((self.address, self.port), timeout=1)
                return
            except OSError:
                if time.time() > end:
                    raise
                time.sleep(0.1)

    def tell(self, command, words=""):
        text = json.dumps({"command": command, "params": words, "token": "1"}).encode()
        self.line.sendall(b"%d:%s," % (len(text), text))

    def dial(self, user):
        self.tell("dial", f"sip:{user}@{SERVER}")

    def answer(self):
        self.tell("accept")

    def reject(self):
        self.tell("hangup")

    def hang_up(self):
        self.tell("hangup")

    def hold(self):
        self.tell("hold")

    def resume(self):
        self.tell("resume")

    def leave(self):
        self.tell("quit")


class Linphone(Phone):
    kind = "linphonec"
    has = frozenset(("Opus", "SRTP"))

    def start(self):
        self.clear()
        self.write_tone()
        (self.folder / ".local/share/linphone").mkdir(parents=True)
        secure = "srtp" if self.wishes.get("srtp") else "none"
        (self.folder / "rc").write_text(
            f"[sip]\nsip_port=5060\ndefault_proxy=0\nmedia_encryption={secure}\nkeepalive_period=0\nverify_server_certs=0\n"
            "register_only_when_network_is_up=0\n[net]\nmtu=0\nfirewall_policy=0\nstun_server=\n[rtp]\naudio_rtp_port=7078\n[sound]\necho_cancellation=0\nremote_ring=\n"
            + self.codecs() +
            f"[proxy_0]\nreg_proxy=<sip:{SERVER};transport=udp>\nreg_identity=sip:{self.user}@{SERVER}\nreg_expires=600\nreg_sendregister=1\npublish=0\nquality_reporting_enabled=0\n")
        self.spawn(["linphonec", "-c", str(self.folder / "rc"), "-d", "0"], stdin=subprocess.PIPE)
        self.tell("soundcard use files")
        self.tell(f"play {self.folder / 'tone.wav'}")

    def codecs(self):
        wanted = self.wishes.get("codecs", "PCMA,PCMU").lower().split(",")
        known = [("opus", 48000, 2), ("PCMU", 8000, 1), ("PCMA", 8000, 1), ("speex", 8000, 1), ("speex", 16000, 1), ("G722", 8000, 1), ("GSM", 8000, 1)]
        out = ""
        for number, (name, rate, channels) in enumerate(known):
            out += f"[audio_codec_{number}]\nmime={name}\nrate={rate}\nchannels={channels}\nenabled={int(name.lower() in wanted)}\n"
        return out

    def tell(self, words):
        self.process.stdin.write(words.encode() + b"\n")
        self.process.stdin.flush()

    def dial(self, user):
        self.tell(f"call sip:{user}@{SERVER}")

    def answer(self):
        self.tell("answer")

    def reject(self):
        self.tell("terminate")

    def hang_up(self):
        self.tell("terminate")

    def hold(self):
        self.tell("pause")

    def resume(self):
        self.tell("resume")

    def leave(self):
        self.tell("unregister")


class Twinkle(Phone):
    kind = "twinkle"
    is_mute = True

    def start(self):
        self.clear()
        self.write_tone()
        home = self.folder / ".twinkle"
        home.mkdir()
        # A sound card that plays nothing and hears the tone.
        (self.folder / ".asoundrc").write_text(
            f'pcm.!default {{\n type file\n slave.pcm null\n file /dev/null\n infile "{self.folder / "tone.raw"}"\n format raw\n}}\nctl.!default {{\n type null\n}}\n')
        with wave.open(str(self.folder / "tone.wav")) as file:
            (self.folder / "tone.raw").write_bytes(file.readframes(file.getnframes()))
        (home / "twinkle.sys").write_text(
            "dev_ringtone=alsa:default\ndev_speaker=alsa:default\ndev_mic=alsa:default\nvalidate_audio_dev=no\nalsa_play_period_size=128\n"
            "alsa_capture_period_size=32\nsip_udp_port=5060\nsip_port=5060\nrtp_port=8000\nlog_max_size=5\nlog_show_sip=yes\ngui_use_systray=no\nplay_ringtone=no\nplay_ringback=no\n")
        (home / "phone.cfg").write_text(
            f"user_name={self.user}\nuser_domain={SERVER}\nuser_display={self.user}\nuse_outbound_proxy=no\nuse_registrar=no\nregister_at_startup=yes\nregistration_time=600\n"
            f"codecs={self.wishes.get('codecs', 'PCMA,PCMU').lower().replace('pcma', 'g711a').replace('pcmu', 'g711u')}\nnat_public_ip=\nsip_transport=udp\n"
            "ext_100rel=supported\ncompact_headers=no\nauto_answer=no\nvoicemail_address=\nzrtp_enabled=no\n")
        self.spawn(["twinkle-console", "phone.cfg"], stdin=subprocess.PIPE)

    def tell(self, words):
        self.process.stdin.write(words.encode() + b"\n")
        self.process.stdin.flush()

    def dial(self, user):
        self.tell(f"call sip:{user}@{SERVER}")

    def answer(self):
        self.tell("answer")

    def reject(self):
        self.tell("reject")

    def hang_up(self):
        self.tell("bye")

    def hold(self):
        self.tell("hold")

    def resume(self):
        self.tell("retrieve")

    def leave(self):
        self.tell("deregister")
