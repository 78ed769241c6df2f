import re,glob
flag=r'(number|stop|happened|passed|refused|failed|row|to): (u32|usize|Option<)|number: u64|report: Report'
for f in sorted(glob.glob('crates/*/src/*.rt')):
    s=open(f).read()
    for m in re.finditer(r'^(?:pub )?struct (\w+) \{\n((?:.*\n)*?)\}',s,re.M):
        v=re.findall(r'^    (?:pub )?(\w+): (.*),',m[2],re.M)
        hit=[n for n,t in v if re.match(flag,f'{n}: {t}')]
        if hit: print(f'{f}:{s[:m.start()].count(chr(10))+1} {m[1]} - {", ".join(hit)}, beside '+(', '.join(n for n,t in v if n not in hit) or 'nothing'))
