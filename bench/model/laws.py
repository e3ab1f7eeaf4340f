#!/usr/bin/env python3
"""laws.py SEED CASES: the laws of one reading on the model itself, over random sheets of every kind.

What packs is read again whatever follows; what is read packs, to as many bits; a fault other than Short stays."""
import os, random, sys
sys.path.insert(0, os.path.dirname(os.path.realpath(__file__)))
import eds_model as m, gen, json
seed, cases = int(sys.argv[1]), int(sys.argv[2])
runs = bad = sheets = 0
for i in range(cases):
    rng = random.Random(seed * 1000003 + i)
    texts = gen.case(rng, m.EVERYTHING)
    try:
        j0 = m.judged(texts, None, m.EVERYTHING)
    except m.Refused:
        continue
    sheets += 1
    for t0 in rng.sample(j0.types, min(4, len(j0.types))):
        try:
            j = m.judged(texts, t0.name, m.EVERYTHING)
        except m.Refused:
            continue
        t = j.word
        for _ in range(6):
            runs += 1
            try:
                v = m.value_of(j, t, m.Json(json.dumps(gen.Values(rng, j).value(t)).encode()).read(), "")
                bits = m.Packer(j).pack(t, v)
                more = [rng.randrange(2) for _ in range(rng.randrange(20))]
                w, n = m.Reader(j, bits + more).read(t)
                if n != len(bits) or m.shown(w) != m.shown(v):
                    bad += 1; print("packed is not read", seed, i, t.name, m.shown(v), m.shown(w)); print(texts)
            except m.WrongShape:
                pass
            except m.Fault as f:
                pass
            digits = m.re.sub(r"[^0-9a-fA-F]", "", gen.frame_text(rng, j, t).decode())
            b = m.bits_of(bytes.fromhex(digits[:len(digits) // 2 * 2]))
            try:
                w, n = m.Reader(j, b).read(t)
                c = m.Packer(j).pack(t, w)
                if len(c) != n:
                    bad += 1; print("read does not pack", seed, i, t.name, m.shown(w)); print(texts)
            except m.Fault as f:
                if f.reason != "Short":
                    try:
                        m.Reader(j, b + [rng.randrange(2) for _ in range(24)]).read(t)
                        bad += 1; print("fault does not stay", seed, i, t.name)
                    except m.Fault as g:
                        if (g.reason, g.path) != (f.reason, f.path):
                            bad += 1; print("fault changes", seed, i, t.name, f.reason, f.path, g.reason, g.path)
print(runs, "runs of", sheets, "accepted sheets of", cases, bad, "differ")
