import re,glob
for f in sorted(glob.glob('crates/*/src/*.rt')):
    L=open(f).read().split('\n')
    for i,l in enumerate(L):
        m=re.match(r'( *)(?:pub )?(?:extern "C" )?fn (\w+)',l)
        if not m: continue
        j=next(k for k in range(i,len(L)) if L[k]==m[1]+'}'); b=next(k for k in range(i,j) if L[k][-1:]=='{')
        N=[re.sub(r'\b[a-z_]\w*\b(?!:)','v',re.sub(r'b"[^"]*"|\d[\d_]*|[A-Z]\w*(::\w+)?','T',x.strip())) for x in L[b+1:j]]; used=set()
        for w in range(len(N)//2,0,-1):
            for a in range(len(N)-w+1):
                at=[a]; [at.append(c) for c in range(a+w,len(N)-w+1) if c>=at[-1]+w and N[c:c+w]==N[a:a+w]]
                rows={x+d for x in at for d in range(w)}
                if len(at)*w>=4 and len(at)>1 and not rows&used and sum(map(len,N[a:a+w]))>10: used|=rows; print(f'{f}:{b+2+a} {m[2]} {len(at)} times {w} line(s), at lines {[b+2+x for x in at]}')
