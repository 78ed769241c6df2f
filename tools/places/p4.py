import re,glob
K=[('smaller of two',r'if (\w+) < (\w+) \{\s*\1\s*\} else \{\s*\2\s*\}'),('smaller of two, other form',r'if len - at < [\w:]+ \{\s*len\s*\} else'),('sum that stops at the largest',r'<= \S*LARGEST - (\w+) \{\s*\1 \+'),
('byte as a number',r'^    x as (u32|usize)$'),('bytes lowest first, read',r'256 \* wide\('),('bytes lowest first, written',r'= low\(x\);'),('byte of a number, by division',r'\w+ (/ [\d_]+ )?% 256[,;)]'),
('decimal digits, written',r'48 \+|/ 10;'),('decimal digits, read',r"\* 10 \+ \(b - b'0'\)|= digit\(v,"),('is a digit',r"b'0' <= b|< b'0' \|\|"),('swap',r'let x = s\[a\];\s*s\[a\] = s\[b\];|exchange\(s, i,'),
('fill',r'^ +\w+\[(?:\w+ \+ )?(\w+)\] = (v|0|if .*\});\s*\1 \+= 1;'),('word set where the place is there',r'if (\w+) < \w+\.len\(\)[^{]*\{\s*\w+\[\1\] ='),('copy',r'out\[at \+ i\] = s\[i\];|out\[i\] = form\[j\];|ids\[n\] = x;|next\[r\] = table::client'),('all words or bytes 0',r'if [^{]*\[[^\]]*\] != 0 \{\s*return false'),('search or count by hand',r'\] (==|!=) [xb](\[i\])? \{ ?|s\[i\] != b\b'),
('text cut at a letter',r'\bfind\(s, [^b]*\bb[\'\)]'),('bool as a number',r'\{\s*(1\s*\} else \{\s*0|0\s*\} else \{\s*1)\s*\}'),('in range',r'1 <= q && q <='),('narrowed, or 0',r'as (u8|u32)\s*\} else \{ 0 \}'),('value at a place, or 0',r'if k < \w+\.len\(\) \{ \w+\[k\] \} else \{ 0 \}'),('or else',r'== LinkedTable::NONE \{ y \}'),
('largest value written out',r'= (18_?446_?744_?073_?709_?551_?615|4_?294_?967_?295);|0xFFFF_FFFF'),('comparison of kinds one by one',r'c\.kind [!=]= Command::\w+\)? *(\{|\|)'),('remainder mended',r'if x < q \{ x \} else \{ x - q \}')]
for f in sorted(glob.glob('crates/*/src/*.rt')):
    s=open(f).read()
    for k,p in K:
        seen=set()
        for m in re.finditer(p,s,re.M):
            fn=(re.findall(r'fn (\w+)',s[:m.start()]) or ['-'])[-1]; ln=s[:m.start()+len(m[0])-len(m[0].lstrip())].count('\n')+1
            if (fn,k) not in seen: seen.add((fn,k)); print(f'{f}:{ln} {fn} - {k}')
