import re,glob
T=r"(?:b'.'|[A-Z]\w*::[A-Z_]+|SHORT|SMALL|[1-9]\d*)"
for f in sorted(glob.glob('crates/*/src/*.rt')):
    L=open(f).read().split('\n'); fn=''; C={}
    for i,l in enumerate(L):
        m=re.match(r' *(?:pub )?(?:extern "C" )?fn (\w+)',l); fn=(i+1,m[1]) if m else fn
        m=re.search(r'\bif (room) \{|\bif ([\w.]*\b(?:kind|case)|s\[[^\]]*\]) [!=]= '+T,l) or re.search(r'if ()(n|q) (?:==|<=) '+T+r' \{',l) or re.search(r'\(()(c\.kind) ==',l)
        if m: C.setdefault((fn,m[1] or m[2]),[]).append(i+1)
    for (n,v),at in C.items(): print(f'{f}:{n[0]} {n[1]} - tests {v} in lines {at}')
