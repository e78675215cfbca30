#!/usr/bin/env python3
"""Compares the words of two trees: which words of the rules, laws and contracts are not the same but for their spelling.

usage: python3 tools/same_words.py OLD NEW [specs|src] [HOW-MANY]

OLD is a tree of the older Rattle, NEW one of today's. Every word is compared in lower case with underscores for dashes; brackets, dots and
comments are passed over. It prints each kind of difference with its number and one place. Contracts lose `λ r.` (the variable becomes `result`)
and the words `now`, `entry`, `old` that the older and the newer form put at other places; `exit` is `new`.
"""
import re,sys,os,glob,collections,difflib
A,B=sys.argv[1],sys.argv[2]
kinds=sys.argv[3] if len(sys.argv)>3 else 'specs'
W=re.compile(r"--[^\n]*|//[^\n]*|\"(?:[^\"\\]|\\.)*\"|«([^»]*)»|[^\s(){}.;,@\"«»\[\]\\:|⌜⌝]+")
def snake(t):
    t=t.replace('-','_').replace('·','_').replace("′","'")
    t=re.sub(r"(?<=[a-z0-9_'])([A-Z])",lambda m:'_'+m.group(1),t).lower()
    t=re.sub('_+','_',t).strip('_')
    t=re.sub('_(lem|here)$','',t)
    return t
def toks(text):
    out=[]
    for m in W.finditer(text):
        t=m.group(0)
        if t.startswith(('--','//')): continue
        if t[0]=='«': t=m.group(1)
        out.append(snake(t) if re.match(r"[A-Za-z_]",t) else t)
    return out
def clauses(text):
    res=[]
    for m in re.finditer(r"(?m)^\s*(requires|ensures|ghost(?! use))\b[^{\n]*\{",text):
        d=1;i=m.end()
        while d and i<len(text):
            d+=(text[i]=='{')-(text[i]=='}'); i+=1
        res.append(text[m.end():i-1])
    return res
pairs=collections.Counter(); where={}
n=0
for f in sorted(glob.glob(A+'/crates/*/'+('specs/**/*.antt' if kinds=='specs' else 'src/**/*.rt'),recursive=True)):
    g=B+f[len(A):]
    if not os.path.exists(g): print('gone',f); continue
    a=open(f).read(); b=open(g).read()
    if kinds=='specs':
        strip=lambda t: '\n'.join(l for l in t.split('\n') if not re.match(r'\s*(pub )?use ',l))
        ta,tb=toks(strip(a)),toks(strip(b))
    else:
        ca,cb=clauses(a),clauses(b)
        if len(ca)!=len(cb): print('clauses',f,len(ca),len(cb))
        def old(c):
            m=re.match(r"\s*λ\s+(\S+?)\.",c)
            if m:
                v=m.group(1); c=c[m.end():]
                c=re.sub(r"(?<![\w'.-])"+re.escape(v)+r"(?![\w'-])","result",c)
            x=toks(c); y=[]
            for w in x:
                if w in('now','entry'): continue
                y.append({'exit':'new','get_d':'get_or'}.get(w,w))
            return y+['§']
        def new(c):
            return [w for w in toks(c) if w not in('now','old')]+['§']
        ta=[x for c in ca for x in old(c)]; tb=[x for c in cb for x in new(c)]
    n+=len(ta)
    if ta==tb: continue
    sm=difflib.SequenceMatcher(None,ta,tb,autojunk=False)
    for op,i,j,k,l in sm.get_opcodes():
        if op!='equal':
            key=(' '.join(ta[i:j]),' '.join(tb[k:l])); pairs[key]+=1; where.setdefault(key,os.path.relpath(f,A))
print(n,'words;',sum(pairs.values()),'differences of',len(pairs),'kinds')
for (x,y),c in pairs.most_common(int(sys.argv[4]) if len(sys.argv)>4 else 200): print(c,'|',x[:100],'=>',y[:100],'|',where[(x,y)])
