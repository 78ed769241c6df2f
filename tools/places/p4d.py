import re,glob,collections
C=collections.OrderedDict()
for f in sorted(glob.glob('crates/*/src/*.rt')):
    fn='-'
    for i,l in enumerate(open(f),1):
        m=re.match(r' *(?:pub )?(?:extern "C" )?fn (\w+)',l); fn=f'{f}:{i} {m[1]}' if m else fn
        n=0 if m else len(re.findall(r'(?:report::|^ +)(?:text|field|word|words)\(|page::put_\w+\(|\be?print(?:ln)?!|write!\(',l))
        if n: C[fn]=C.get(fn,0)+n
for k,n in C.items(): print(k,'-',n,'printing calls')
