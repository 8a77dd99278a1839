#!/usr/bin/env python3
"""Turns the proof files of an older Rattle (`proofs/F/Proof.antt`, all needs of a function in order) into today's
`Invariants.antt` and `Answers.antt`.

usage: rt check --generated DIR --old-names              in the crate's folder, before: writes DIR/names.json
       python3 tools/answers.py DIR/names.json crates/NAME [FUNCTION..]

It goes by text: steps, goals, clauses, arms and loops get the names that names.json has beside the older ones, chains of
`.before` go, and answers that only search go. It prints what it could not turn; `rt check` decides, and what it refuses
is mended by hand. It goes from the repository once no unlanded work has proofs of the older form (docs/PORT.md).
"""
import json,re,sys,os
ID=r"[^\s(){}\[\],;.∷⌜⌝λ]+"
TOK=re.compile(r"(?P<com>--[^\n]*)|(?P<id>(?:(?![λ])[^\s(){}\[\],;.|])+)|(?P<p>[(){}\[\],;.|λ])|(?P<ws>\s+)")

def canon(s): return s.replace('-','_').lower()

def decls(text):
    """[(head comment lines, lines)] of top-level items"""
    out=[];cur=[];
    for line in text.split('\n'):
        if line and not line[0].isspace() and line[0] not in ')}]':
            cur=[line]; out.append(cur)
        else:
            if cur is not None and out: cur.append(line)
    return out

SRC=''
def params_of(src,name):
    for d,_,fs in os.walk(src):
        for f in fs:
            if f.endswith('.rt'):
                t=open(os.path.join(d,f)).read()
                m=re.search(r"\bfn "+re.escape(name)+r"\s*(?:<[^>]*>)?\(",t)
                if m:
                    i=m.end(); dpt=1
                    while dpt:
                        if t[i] in '([': dpt+=1
                        if t[i] in ')]': dpt-=1
                        i+=1
                    return [re.sub(r"^(mut |&mut |&)*","",p.split(':')[0].strip()) for p in split(t[m.end():i-1]) if p.strip()]
    return []

class Conv:
    def __init__(self,j,key,crate,fpath):
        self.j=j[key]; self.crate=crate; self.fpath=fpath; self.notes=[]
        self.steps={}     # canon old -> new
        self.clauses={}   # new step -> fields
        self.callee={}
        for i,p in enumerate(self.j['places']):
            old,par,(so,sn),callee,extra=p
            if so:
                self.steps.setdefault(canon(so),sn)
                c=self.j['clauses'][i]
                if c: self.clauses[sn]=c['fields']
                if callee: self.callee[sn]=callee
                for eo,en in extra: self.steps.setdefault(canon(eo),en)
        self.armmap={}
        for a in self.j['arms']:
            if not a: continue
            arm,_,fl=a
            for new,old,path in fl:
                if not path: continue
                k=(canon(old),tuple(path)); v=arm+'.'+new
                if k in self.armmap and self.armmap[k]!=v: self.notes.append(f"arm of {old}.{'.'.join(path)}: {v} or {self.armmap[k]}")
                else: self.armmap[k]=v
        self.places={canon(p[0]):n for p,n in zip(self.j['places'],self.j['places_by_name'])}
        self.typed={}     # canon step -> var
        for t in self.j['typed']:
            for v,s in t: self.typed[canon(s)]=v
        self.pre=self.j['pre']
        self.needs=[(a,b) for a,b in self.j['needs']]
        self.asked={}
        for a,b in self.needs:
            if a in self.j['asked']: self.asked[b]=self.j['asked'][a]
        self.own=params_of(SRC,fpath.split('.')[-1])
        self.rec=False; self.used=set(); self.imported=set(); self.helpers={}

    # ---- needs
    KINDS=('overflow-','nonzero-','bounds-','offset-bounds-')
    def need(self,name):
        """old need name (as in our file) -> new goal name"""
        n=name
        cands=[n]
        for k in self.KINDS:
            if n.startswith(k): cands.append(n[len(k):])
        if n.startswith('bounds-'): cands.append('index-'+n[7:])
        for c in cands:
            for a,b in self.needs:
                if canon(a)==canon(c): return b
        for c in cands:
            for a,b in self.needs:
                if canon(b)==canon(c): return b
        # temporaries: same head, nearest number not used
        for c in cands:
            m=re.match(r"(.*-t)(\d+)$",c)
            if m:
                best=[(abs(int(re.match(r".*t(\d+)$",a)[1])-int(m[2])),b) for a,b in self.needs if re.match(re.escape(canon(m[1]))+r"\d+$",canon(a)) and b not in self.used]
                if best: return min(best)[1]
        # slice-read / array-read .. names
        for c in cands:
            d=canon(c)
            for pre in ('shared_','array_','mut_'):
                d2=d.replace(pre,'',1)
                for a,b in self.needs:
                    if canon(a)==d2 or canon(a).replace(pre,'',1)==d2: return b
        return None

    # ---- bodies
    def body(self,text,cname,goal):
        """rewrites a definition's right side"""
        self.alias={cname:cname}
        t=text
        # drop aliases: let X = c(.before)* in
        pat=re.compile(r"let ("+r"[\w'₀-₉]+"+r") =\s+\(?([\w'₀-₉]+)((?:\.before)*)\)? in\s*")
        while True:
            m=None
            for m_ in pat.finditer(t):
                if m_[2] in self.alias: m=m_; break
            if not m: break
            self.alias[m[1]]=cname
            t=t[:m.start()]+t[m.end():]
        # place functions (start c)
        for f in getattr(self,'placefns',()):
            t=re.sub(r"\(?\b"+re.escape(f)+r" ([\w'₀-₉]+)((?:\.before)*)\)?",lambda m: m[0] if m[1] not in self.alias else cname,t)
            t=re.sub(r"let ("+r"[\w'₀-₉]+"+r") =\s+"+re.escape(cname)+r" in\s*",lambda m:(self.alias.__setitem__(m[1],cname) or ''),t)
        # lets of paths to steps of several clauses become the paths themselves
        names='|'.join(sorted(map(re.escape,self.alias),key=len,reverse=True))
        pat=re.compile(r"let ([\w'₀-₉]+) =\s+\(?("+names+r")((?:\.before)*)((?:\.[^\s(){}\[\],;.|]+)+)\)? in\s*")
        pos=0
        while True:
            m=pat.search(t,pos)
            if not m: break
            fs=self.norm(m[4][1:].split('.'))
            st=self.steps.get(canon(fs[0]))
            multi=(st in self.clauses and (len(fs)==1 or fs[1:]==['ensures'])) or (fs==['requires'] and self.pre)
            if any(k[0]==canon(fs[0]) and k[1][:len(fs)-1]==tuple(fs[1:]) and len(k[1])>len(fs)-1 for k in self.armmap): multi=True
            if len(fs)==1 and re.search(r"(?<![\w.])"+re.escape(m[1])+r"\.(new|auto)\.[01]",t): multi=True
            if not multi: pos=m.end(); continue
            t=t[:m.start()]+re.sub(r"(?<![\w.'₀-₉-])"+re.escape(m[1])+r"(?![\w'₀-₉-])",m[2]+'.'+'.'.join(('«'+f if f0 else f) for f,f0 in [(f,False) for f in m[4][1:].split('.')]),t[m.end():])
        # paths
        names='|'.join(sorted(map(re.escape,self.alias),key=len,reverse=True))
        path=re.compile(r"(?<![\w.'-])("+names+r")((?:\.before)*)((?:\.[^\s(){}\[\],;.|]+)*)(?![\w'-])")
        def sub(m):
            rest=m[3]
            if not rest:
                if m[2]: self.notes.append(f"place used whole: {m[0]}")
                return cname
            fs=self.norm(rest[1:].split('.'))
            F=None
            if fs in(['requires'],['pre']) and self.pre: F,base=self.pre['fields'],'.requires'
            st=self.steps.get(canon(fs[0]))
            if len(fs)==2 and fs[1]=='ensures' and st in self.clauses: F,base=self.clauses[st],'.'+st+'.ensures'
            if F:
                if re.match(r"\s+in\b",t[m.end():]) and re.search(r"let \([^=]*\) =\s+$",t[:m.start()]): return cname+base
                tup=f"{cname}{base}.{F[-1]}"
                for f in reversed(F[:-1]): tup=f"({cname}{base}.{f}, {tup})" if f is F[-2] and False else f"{cname}{base}.{f}, {tup}"
                return '⟪'+tup+'⟫'
            r=self.fields(fs)
            if isinstance(r,tuple): return '⟪'+', '.join(cname+r[1]+'.'+f for f in r[2])+'⟫'
            return cname+r
        for h,pl in self.helpers.items():
            if goal: t=re.sub(r"(?<![\w.'-])"+re.escape(h)+r" \(?("+names+r")((?:\.before)*)\)?(?![\w.'-])",lambda m: f"{h} (goal.at.{goal} {cname}).{pl}",t)
        t=path.sub(sub,t)
        t=self.destruct(t,cname)
        # a rewritten pair of clauses: each by itself
        pat=re.compile(r"let ([\w'₀-₉]+|\([^()]*\)) =\s+\(?rw (\([^()]*\)|\S+) at ⟪([^⟪⟫]*)⟫\)? in")
        pos=0
        while True:
            m=pat.search(t,pos)
            if not m: break
            cl=[x.strip() for x in m[3].split(',')]
            rest=t[m.end():]
            if m[1].startswith('('):
                ns=split(m[1][1:-1])
                if len(ns)!=len(cl): pos=m.end(); continue
            else:
                ns=[m[1]+'₁₂₃₄₅₆'[k] for k in range(len(cl))]
                def one(mm):
                    o,i=self.proj(list(ns),mm[1][1:].split('.'),0)
                    fs=mm[1][1:].split('.')
                    if isinstance(o[0],tuple): return '('+', '.join(ns[o[0][1]:])+')'
                    return '.'.join(list(o)+fs[i:])
                rest=re.sub(r"(?<![\w.'₀-₉-])"+re.escape(m[1])+r"((?:\.[01])+)(?![\w'₀-₉-])",one,rest)
                rest=re.sub(r"(?<![\w.'₀-₉-])"+re.escape(m[1])+r"(?![\w.'₀-₉-])",'⟪'+', '.join(ns)+'⟫',rest)
            new=' '.join(f"let {n} = rw {m[2]} at {x} in" for n,x in zip(ns,cl) if n!='_')
            t=t[:m.start()]+new+rest; pos=m.start()+len(new)
        t=unwrap(t)
        t=re.sub(r"\.type-inv(?![\w'-])",".type_inv",t)
        for x in re.findall(r"let ([\w'₀-₉]+) = "+re.escape(cname)+r"\.args in",t):
            t=re.sub(r"(?<![\w.'₀-₉-])"+re.escape(x)+r"\.t(\d+)(?![\w'-])",lambda m: x+'.'+self.own[int(m[1])-1] if 't'+m[1] not in self.own and int(m[1])<=len(self.own) else m[0],t)
        t=re.sub(r"\(not-(?:true|false) _ (c\.if-not-[\w'-]+\.(?:true|false))\)",r"\1",t)
        t=re.sub(r"not-(?:true|false) _ (c\.if-not-[\w'-]+\.(?:true|false))",r"\1",t)
        return t

    def norm(self,fs):
        """in a recursion the measure stood before the clauses"""
        if fs and fs[0]=='pre': fs=['requires']+fs[1:]
        if self.rec and fs[0]=='requires' and len(fs)>1 and fs[1]=='1': fs=[fs[0]]+fs[2:]
        elif self.rec and fs[0]=='requires' and len(fs)>1 and fs[1]=='0': fs=['decreases']+fs[2:]
        return fs

    def fields(self,fs):
        out=[]
        f0=fs[0]
        if f0=='pre': f0='requires'
        if f0=='well-formed': f0='well_formed'
        if f0=='args' and len(fs)>1 and re.match(r"t\d+$",fs[1]) and self.own and fs[1] not in self.own:
            k=int(fs[1][1:])-1
            if k<len(self.own): fs=[f0,self.own[k]]+fs[2:]
        if f0 in('args','ranges','lifetimes','well_formed','type_inv','requires') or (f0=='decreases' and self.rec and canon('decreases') not in self.steps):
            out=[f0]; i=1
            if f0=='requires' and self.pre and len(fs)>1 and fs[1].isdigit():
                F=self.pre['fields'] if isinstance(self.pre,dict) else self.pre
                o,i=self.proj(F,fs,1)
                if isinstance(o[0],tuple): return ('tuple','.requires',F[o[0][1]:])
                out+=o
            return '.'+'.'.join(out+fs[i:])
        c=canon(f0)
        for n in range(len(fs),1,-1):
            k=(c,tuple(fs[1:n]))
            if k in self.armmap: return '.'+'.'.join([self.armmap[k]]+fs[n:])
        # known of slices
        if len(fs)>1 and fs[1]=='given':
            for k in (c,c.replace('array_','shared_slice_',1),'shared_'+c,c.replace('shared_','',1)):
                if k in self.typed: return '.type_inv.'+'.'.join([self.typed[k]]+fs[2:])
        new=self.steps.get(c) or self.steps.get(c.replace('shared_','',1)) or self.steps.get('shared_'+c)
        if new is None:
            self.notes.append(f"step {f0} unknown"); new=f0
        if (new.startswith('if-') or new.endswith('-test')) and len(fs)>1 and fs[1] in('left','taken'): fs=[fs[0],'false' if fs[1]=='left' else 'true']+fs[2:]
        out=[new]; i=1
        if len(fs)>2 and fs[1] in('auto','new') and fs[2] in '01' and new in self.callee:
            P=self.j['params'].get(self.callee[new],[])
            k=2; n=0
            while k<len(fs) and fs[k]=='1': n+=1; k+=1
            if k<len(fs) and fs[k]=='0' and n<len(P): return '.'+'.'.join([new,fs[1],P[n]]+fs[k+1:])
        if len(fs)>2 and fs[1]=='ensures' and fs[2].isdigit() and new in self.clauses:
            o,i=self.proj(self.clauses[new],fs,2)
            if isinstance(o[0],tuple): return ('tuple','.'+new+'.ensures',self.clauses[new][o[0][1]:])
            out+=['ensures']+o
        return '.'+'.'.join(out+fs[i:])

    def proj(self,F,fs,i):
        """a path into the nested pairs of several clauses -> clause; None, k: the rest from clause k on"""
        k=int(fs[i])
        if k>1:
            if k<len(F): return [F[k]],i+1
            return [F[-1],str(k-len(F)+1)],i+1
        n=0
        while i<len(fs) and fs[i]=='1' and n<len(F)-1: n+=1; i+=1
        if n==len(F)-1: return [F[n]],i
        if i<len(fs) and fs[i]=='0': return [F[n]],i+1
        return [('rest',n)],i

    def destruct(self,t,cname):
        """let (a, b) = c.requires in  of several clauses"""
        pat=re.compile(r"let \(((?:[^()]|\((?:[^()]|\([^()]*\))*\))*)\) =\s+("+re.escape(cname)+r"(?:\.[^\s(){}\[\],;.|]+)+) in")
        pos=0
        while True:
            m=pat.search(t,pos)
            if not m: return t
            p=m[2].split('.')
            F=None
            if p[1:]==['requires'] and self.pre: F=self.pre['fields'] if isinstance(self.pre,dict) else self.pre
            if len(p)==3 and p[2]=='ensures' and p[1] in self.clauses: F=self.clauses[p[1]]
            if self.rec and p[1:]==['requires']:
                parts=split(m[1]); rest=t[m.end():]
                first=f"let {parts[0]} = {cname}.decreases in" if parts[0]!='_' else ''
                left=', '.join(parts[1:])
                if len(parts)==2 and not parts[1].startswith('('):
                    h=parts[1]
                    if self.pre:
                        R=self.pre['fields']
                        def hs2(mm):
                            fs=mm[1][1:].split('.') if mm[1] else []
                            if not fs or not fs[0].isdigit(): return '⟪'+', '.join(m[2]+'.'+f for f in R)+'⟫'+(mm[1] or '')
                            o,i=self.proj(R,fs,0)
                            if isinstance(o[0],tuple): return '⟪'+', '.join(m[2]+'.'+f for f in R[o[0][1]:])+'⟫'
                            return '.'.join([m[2]]+o+fs[i:])
                        if h!='_': rest=re.sub(r"(?<![\w.'₀-₉-])"+re.escape(h)+r"((?:\.[^\s(){}\[\],;.|⟪⟫]+)*)(?![\w'₀-₉-])",hs2,rest)
                        new=first
                    else: new=first+(f" let {h} = {m[2]} in" if h!='_' else '')
                else:
                    if left.startswith('(') and closes(left): left=left[1:-1]
                    self.rec=False; sub=self.destruct(f"let ({left}) = {m[2]} in",cname); self.rec=True
                    new=first+' '+sub
                t=t[:m.start()]+new+rest; pos=m.start()+len(new); continue
            if not F: pos=m.end(); continue
            parts=split(m[1])
            while len(parts)<len(F) and parts[-1].startswith('(') and closes(parts[-1]): parts=parts[:-1]+split(parts[-1][1:-1])
            if len(parts)>len(F): parts=parts[:len(F)-1]+['('+', '.join(parts[len(F)-1:])+')']
            rest=t[m.end():]
            if len(parts)<len(F):
                R=F[len(parts)-1:]; h=parts[-1]; parts=parts[:-1]
                def hs(mm):
                    fs=mm[1][1:].split('.') if mm[1] else []
                    if not fs or not fs[0].isdigit(): return '('+', '.join(m[2]+'.'+f for f in R)+')'+(mm[1] or '')
                    o,i=self.proj(R,fs,0)
                    if isinstance(o[0],tuple): return '('+', '.join(m[2]+'.'+f for f in R[o[0][1]:])+')'
                    return '.'.join([m[2]]+o+fs[i:])
                if h!='_': rest=re.sub(r"(?<![\w.'₀-₉-])"+re.escape(h)+r"((?:\.[^\s(){}\[\],;.|]+)*)(?![\w'₀-₉-])",hs,rest)
            new=' '.join(f"let {x} = {m[2]}.{f} in" for x,f in zip(parts,F) if x!='_')
            t=t[:m.start()]+new+rest; pos=m.start()+len(new)


    def record(self,t,fields):
        """the tuple at the end of a body of a goal with several clauses -> record"""
        # find the last top-level tuple
        s=t.rstrip()
        pre,core=lets(s)
        if not (core.startswith('(') and closes(core)):
            if core.split()[0] in ('rw','simp') and core.endswith(')'):
                d=0
                for i in range(len(core)-1,-1,-1):
                    if core[i] in ')]}': d+=1
                    elif core[i] in '([{': d-=1
                    if d==0: break
                parts=[p for p in split(core[i+1:-1]) if p.strip()]
                while len(parts)<len(fields) and parts[-1].strip().startswith('(') and closes(parts[-1].strip()):
                    more=[p for p in split(parts[-1].strip()[1:-1]) if p.strip()]
                    if len(more)<2: break
                    parts=parts[:-1]+more
                if i>3 and len(parts)>=len(fields): 
                    if len(parts)>len(fields): parts=parts[:len(fields)-1]+['('+','.join(parts[len(fields)-1:])+')']
                    return pre+core[:i]+'(record {\n'+'\n'.join("        %s = %s;"%(f,re.sub(r"\n\s*","\n          ",p.strip())) for f,p in zip(fields,parts))+'\n    })'
            if core.split()[0]=='rw':
                m=re.match(r"rw (\((?:[^()]|\([^()]*\))*\)|\S+) (.*)$",core,re.S)
                if m and not m[2].startswith(('rw','λ','simp')):
                    return pre+'let both =\n        '+m[2]+'\n    in rw '+m[1]+' (record {\n'+'\n'.join(f"      {f} = both.{k};" for k,f in enumerate(fields))+'\n    })'
            if core.split()[0] in ('rw','simp','subst','λ','elim'):
                self.notes.append('goal of several clauses not a tuple: '+core[:60]); return t
            ind='    '
            return pre+'let both =\n        '+core+'\n    in record {\n'+'\n'.join(f"      {f} = both.{k};" for k,f in enumerate(fields))+'\n    }'
        # match back
        d=0
        for i in range(len(s)-1,-1,-1):
            if s[i] in ')]}': d+=1
            elif s[i] in '([{': d-=1
            if d==0: break
        inner=s[i+1:-1]
        parts=split(inner)
        parts=[p for p in parts if p.strip()]
        while len(parts)<len(fields) and parts[-1].strip().startswith('(') and closes(parts[-1].strip()):
            more=[p for p in split(parts[-1].strip()[1:-1]) if p.strip()]
            if len(more)<2: break
            parts=parts[:-1]+more
        if len(parts)<len(fields):
            self.notes.append('goal of several clauses not a tuple'); return t
        if len(parts)>len(fields): parts=parts[:len(fields)-1]+['('+','.join(parts[len(fields)-1:])+')']
        def flat(p):
            return re.sub(r"\n\s*","\n          ",p.strip())
        return s[:i]+'record {\n'+'\n'.join(f"        {f} = {flat(p)};" for f,p in zip(fields,parts))+'\n    }'

def unwrap(t):
    """⟪a, b⟫ -> a, b in a tactic's list, else (a, b)"""
    out=''; stack=[]
    i=0
    while i<len(t):
        ch=t[i]
        if ch in '([{':
            stack.append('list' if ch=='(' and re.search(r"(?:omega|grind|search|cc|simp)\s*$",t[:i]) else 'other')
            out+=ch
        elif ch in ')]}':
            if stack: stack.pop()
            out+=ch
        elif ch=='⟪':
            bare=bool(stack) and stack[-1]=='list'
            stack.append('bare' if bare else 'other'); out+='' if bare else '('
        elif ch=='⟫':
            k=stack.pop(); out+='' if k=='bare' else ')'
        else: out+=ch
        i+=1
    return out

def lets(s):
    """the leading lets of a body, and the rest"""
    i=0
    while True:
        m=re.match(r"\s*let\b",s[i:])
        if not m: break
        k=i+m.end(); d=0; n=1
        while n:
            m2=re.compile(r"[(\[{]|[)\]}]|(?<![\w'-])let(?![\w'-])|(?<![\w'-])in(?![\w'-])").search(s,k)
            if not m2: return s[:i],s[i:].lstrip()
            w=m2[0]
            if w in '([{': d+=1
            elif w in ')]}': d-=1
            elif d==0 and w=='let': n+=1
            elif d==0 and w=='in': n-=1
            k=m2.end()
        i=k
    r=s[i:]
    return s[:i]+r[:len(r)-len(r.lstrip())],r.lstrip()

def closes(s):
    d=0
    for i,ch in enumerate(s):
        if ch in '([{': d+=1
        if ch in ')]}':
            d-=1
            if d==0: return i==len(s)-1
    return False

def split(s):
    out=[];d=0;cur='';
    for ch in s:
        if ch in '([{': d+=1
        if ch in ')]}': d-=1
        if ch==',' and d==0: out.append(cur.strip(' ')); cur=''
        else: cur+=ch
    if cur.strip(): out.append(cur.strip(' '))
    return out

def invariant(cv,old,new,vars_,changed,lhs,body):
    """positional arguments -> fields of l"""
    n=len(vars_); ch=[v for v,c in zip(vars_,changed) if c]
    args=lhs.split()[1:]
    sub={}
    if len(args)==n+len(ch):
        for a,v,c in zip(args[:n],vars_,changed): sub[a]='l.initial.'+v if c else 'l.'+v
        for a,v in zip(args[n:],ch): sub[a]='l.'+v
    else:
        cv.notes.append(f"loop {old}: {len(args)} arguments, {n}+{len(ch)} known")
        for a in args:
            b=a.rstrip('₀₁')
            if b in vars_: sub[a]=('l.initial.'+b) if a!=b else 'l.'+b
    sub.pop('_',None)
    names='|'.join(sorted(map(re.escape,sub),key=len,reverse=True))
    if not names: return body
    return re.sub(r"(?<![\w.'₀-₉-])("+names+r")(?![\w'₀-₉-])",lambda m: sub[m[1]],body)

def uses(lines,text,extra_skip):
    """import lines restricted to what the text names"""
    toks=set(re.findall(r"[^\s(){}\[\],;.|]+",text)) | set(re.findall(r"[\w'₀-₉-]+",text))
    ops={'::':None}
    out=[]
    for l in lines:
        if any(s in l for s in extra_skip): continue
        m=re.match(r"use ([\w.+'-]+)\.\{(.*)\}$",l)
        if m:
            keep=[]
            for n in [x.strip() for x in m[2].split(',')]:
                b=n.split(' as ')[-1]
                core=b.replace('◌','')
                if b in toks or core in toks or (b.startswith('◌') and core in text) or b=='[]' and '[]' in text: keep.append(n)
            if keep: out.append(f"use {m[1]}.{{{', '.join(keep)}}}")
        else:
            m=re.match(r"use ([\w.+'-]+)(?: as ([\w'-]+))?$",l)
            n=(m[2] or m[1].split('.')[-1]) if m else None
            if n is None or re.search(r"(?<![\w-])"+re.escape(n)+r"(?![\w-])",text): out.append(l)
    return out

def convert(names,cratedir,pf):
    crate=os.path.basename(os.path.abspath(cratedir))
    d=os.path.dirname(pf)
    rel=os.path.relpath(d,os.path.join(cratedir,'proofs')).replace('/','.')
    key=f"Rattle-{crate}-proofs.{rel}.Lts"
    if key not in names: return f"{rel}: no names"
    cv=Conv(names,key,crate,rel)
    text=open(pf,encoding='utf-8').read()
    head=[];use=[];items=[]
    for it in decls(text):
        l=it[0]
        if l.startswith('--'): 
            if not items and not use: head.append('\n'.join(it).rstrip())
            else: items.append(it)
        elif l.startswith('use '):
            use.append(' '.join(x.strip() for x in it if x.strip()))
        else: items.append(it)
    # group: signature + clauses by name
    groups=[]
    for it in items:
        s='\n'.join(it).rstrip()
        if s.startswith('--'): groups.append(['comment',s,[]]); continue
        if s.startswith('unfolding'):
            groups[-1][2].append(s); continue
        if s.startswith('ruleset '): groups.append(['ruleset',s,[]]); continue
        m=re.match(r"(?:abbrev |unfoldable |pub |opaque )*([^\s]+) :",s)
        if m: groups.append([m[1],s,[]])
        elif groups: groups[-1][2].append(s)
        else: cv.notes.append('odd '+s)
    cv.placefns=[g[0] for g in groups if re.search(r": tie\.[\w-]+ → tie\.[\w-]+$",g[1].split('\n')[0])]
    inv=[];ans=[];helpers=[]
    spec=None
    pend=''
    for name,sig,cl in groups:
        if name=='comment': pend=sig+'\n'; continue
        one=' '.join(sig.split())
        if name in cv.placefns: continue
        if 'statement M' in sig: spec=(name,cl); continue
        m=re.search(r": tie\.(invariant|decreases)-(\S+)$",one)
        if m:
            kind,lp=m[1],m[2]
            L=None
            for k,((lo,ln),vs) in enumerate(cv.j['loops']):
                if canon(lo)==canon(lp): L=(ln,vs,cv.j['changed'][k])
            if not L: cv.notes.append('no loop '+lp); continue
            ln,vs,ch=L
            c=cl[-1]; lhs,body=c.split('=',1)
            unf=[x for x in cl[:-1]]
            b=invariant(cv,lp,ln,vs,ch,lhs,body)
            inv.append(f"{pend}abbrev pub {kind}-{ln} : goal.{kind}-{ln}\n"+''.join(u+'\n' for u in unf)+f"{kind}-{ln} l ={b.rstrip()}"); pend=''
            continue
        m=re.search(r": tie\.Need-(\S+)(.*)$",one)
        if m:
            g=cv.need(m[1])
            if g is None:
                cv.notes.append(f"need {m[1]} unknown"); g='UNKNOWN-'+m[1]
            cv.used.add(g)
            c=cl[-1]; unf=cl[:-1]
            if '=' not in c: print('ODD',pf,repr(cl)); continue
            k=c.index('='); lhs=c[:k].split(); body=c[k+1:]
            cn=lhs[1]
            if body.strip() in('search rules','search needs'): continue
            b=cv.body(body,cn,g)
            if g in cv.asked and len([x for x in lhs[2:] if x!='κs'])==0: b=cv.record(b,cv.asked[g])
            more=''.join(' '+x for x in lhs[2:] if x!='κs')
            ans.append(f"{pend}pub {g} : goal.{g}\n"+''.join(u+'\n' for u in unf)+f"{g} {cn}{more} ={b.rstrip()}"); pend=''
            continue
        # helper
        m=re.search(r"tie\.(\S+?)[\s)]",sig)
        s='\n'.join([sig]+cl)
        ps=re.findall(r"tie\.([\w-]+)",s)
        if ps:
            m=re.search(r"\((\w+) : tie\.([\w-]+)\)",sig) or re.search(r"()tie\.([\w-]+) →",sig)
            for p in ps:
                np=cv.places.get(canon(p))
                if np is None: cv.notes.append('place '+p+' unknown'); np=p
                s=re.sub(r"\(?tie\."+re.escape(p)+r"(?: invariant-loop\S*| decreases-loop\S*)*\)?(?=[\s)])",lambda m: ('(' if m[0].startswith('(') and not m[0].endswith(')') else '')+np+(')' if m[0].endswith(')') and not m[0].startswith('(') else ''),s)
            cn='c'
            for p in ps:
                if cv.places.get(canon(p)): cv.imported.add(cv.places[canon(p)])
            if len(ps)==1 and cv.places.get(canon(ps[0])): cv.helpers[name]=cv.places[canon(ps[0])]
            s=cv.body(s,cn,None)
            cv.notes.append(f"helper {name} over a place")
        ans.append(pend+re.sub(r"^pub ","",s)); pend=''
    # spec's anonymous answers
    if spec:
        sp=' '.join(' '.join(spec[1]).split())
        m=re.search(r"tie\.spec\b(.*)\)\s*$",sp)
        if m:
            args=[]
            rest=m[1].strip()
            i=0
            while i<len(rest):
                if rest[i]==' ': i+=1; continue
                if rest[i]=='(':
                    dd=0
                    for k in range(i,len(rest)):
                        if rest[k]=='(':dd+=1
                        if rest[k]==')':
                            dd-=1
                            if dd==0: break
                    args.append(rest[i:k+1]); i=k+1
                else:
                    k=rest.find(' ',i); k=len(rest) if k<0 else k
                    args.append(rest[i:k]); i=k
            nl=len(cv.j['loops'])
            args=[a for a in args if not re.match(r"(invariant|decreases)-",a)]
            anon=[(i,a) for i,a in enumerate(args) if a.startswith('(λ') and not re.match(r"\(λ c( κs)?\. search (rules|needs)\)$",a)]
            if anon:
                if len(args)==len(cv.needs):
                    for i,a in anon:
                        g=cv.needs[i][1]
                        mm=re.match(r"\(λ (\S+)( κs)?\. (.*)\)$",a)
                        if mm: ans.append(f"pub {g} : goal.{g}\n{g} {mm[1]} = "+cv.body(mm[3],mm[1],g))
                        else: cv.notes.append('odd '+a)
                else:
                    cv.notes.append(f"{len(anon)} unnamed answers, {len(args)} of {len(cv.needs)}: "+'; '.join(f'#{i} {a}' for i,a in anon))
    skip=['.Statement.{statement}','.Tie as tie','.Tie.{','Reads as','.Lts as','.Kinds as','borrow.Fn.']
    base=f"Rattle.{crate}.proofs.{rel}"
    wrote=[]
    if inv:
        body='\n\n'.join(inv)
        f=os.path.join(d,'Invariants.antt')
        open(f,'w').write('\n'.join((head if not ans else head)+uses(use,body,skip)+[f"use {base}.Given as goal"])+'\n\n'+body+'\n'); wrote.append('I')
    if ans:
        body='\n\n'.join(ans)
        f=os.path.join(d,'Answers.antt')
        open(f,'w').write('\n'.join(head+uses(use,body,skip)+[f"use {base}.Goals as goal"]+([f"use {base}.Goals.{{{', '.join(sorted(cv.imported))}}}"] if cv.imported else []))+'\n\n'+body+'\n'); wrote.append('A')
    os.remove(pf)
    return f"{rel}: {'+'.join(wrote) or 'none'}"+(''.join('\n    '+n for n in cv.notes))

def recursive(names,cratedir,folder):
    crate=os.path.basename(os.path.abspath(cratedir))
    rel=os.path.relpath(folder,os.path.join(cratedir,'proofs')).replace('/','.')
    pre=f"Rattle-{crate}-proofs.{rel}.Lts-"
    fns={k[len(pre):]:k for k in names if k.startswith(pre)}
    if not fns: return f"{rel}: no names"
    cvs={f:Conv(names,k,crate,rel) for f,k in fns.items()}
    for cv in cvs.values(): cv.rec=True
    multi=len(fns)>1
    out={f:([],[]) for f in fns}   # invariants, answers
    helpers=[]; use=[]; head=[]; notes=[]
    files=[os.path.join(folder,'Proof.antt')]
    sub=os.path.join(folder,'Proof')
    if os.path.isdir(sub): files+=[os.path.join(sub,x) for x in sorted(os.listdir(sub))]
    params={}
    for k,j in names.items():
        if isinstance(j,dict) and 'params' in j:
            for c,ps in j['params'].items(): params.setdefault(c.split('::')[-1],ps)
    for pf in files:
        text=open(pf,encoding='utf-8').read()
        alias={}; groups=[]; first=True
        for it in decls(text):
            l=it[0]
            if l.startswith('mod '): continue
            if l.startswith('--'):
                (head if not groups and pf is files[0] else groups).append('\n'.join(it).rstrip() if not groups and pf is files[0] else ['comment','\n'.join(it).rstrip(),[]]); continue
            if l.startswith('use '):
                u=' '.join(x.strip() for x in it if x.strip()); u=re.sub(r"\{ ",'{',u); u=re.sub(r",? \}",'}',u)
                m=re.match(r"use \S+\.Lts-(\S+) as (\S+)$",u)
                if m: alias[m[2]]=m[1]
                use.append(u); continue
            s='\n'.join(it).rstrip()
            if s.startswith('unfolding'): groups[-1][2].append(s); continue
            m=re.match(r"(?:abbrev |unfoldable |pub |opaque )*([^\s]+) :",s)
            if m: groups.append([m[1],s,[]])
            elif groups: groups[-1][2].append(s)
            else: notes.append('odd '+s)
        pend=''
        for name,sig,cl in groups:
            if name=='comment': pend=sig+'\n'; continue
            one=' '.join(sig.split())
            body=cl[-1] if cl else ''
            if 'statement M' in one or re.search(r": ℕ → (In |\S+-lts\.Claims|\S+\.Claims)",one): continue
            m=re.search(r": Measures \d+ (\S+)-kinds\.ps",one)
            if m:
                f=canon(m[1]); f=next((x for x in fns if canon(x)==f),f)
                ps=params.get(f)
                k=body.index('='); lhs=body[:k].split(); b=body[k+1:]
                a=lhs[-1]
                def sub_(mm):
                    n=mm[1].count('1') if mm[1] else 0
                    if not ps: notes.append('no parameters of '+f); return mm[0]
                    return 'l.'+ps[n]
                b=re.sub(r"(?<![\w.])"+re.escape(a)+r"((?:\.1)*)\.0(?=\W|$)",sub_,b)
                out[f][0].append(f"abbrev pub decreases-{f} : goal.decreases-{f}\ndecreases-{f} l ={b}")
                continue
            if re.search(r": Measures ",one): notes.append('measure '+one); continue
            m=re.search(r": (\S+)\.(invariant|decreases)-(\S+)$",one)
            if m and m[1] in alias:
                f=alias[m[1]]; cv=cvs[f]; kind,lp=m[2],m[3]; L=None
                for k,((lo,ln),vs) in enumerate(cv.j['loops']):
                    if canon(lo)==canon(lp): L=(ln,vs,cv.j['changed'][k])
                if not L: notes.append('no loop '+lp); continue
                ln,vs,ch=L
                k=body.index('='); 
                b=invariant(cv,lp,ln,vs,ch,body[:k],body[k+1:])
                nm=f"{kind}-{cv.j['stem']}{ln}"
                out[f][0].append(f"{pend}abbrev pub {nm} : goal.{nm}\n"+''.join(u+'\n' for u in cl[:-1])+f"{nm} l ={b.rstrip()}"); pend=''
                continue
            m=re.search(r": (?:\(t : ℕ\) → )?(\S+)\.Need-(\S+)(.*)$",one)
            if m and m[1] in alias:
                f=alias[m[1]]; cv=cvs[f]
                g=cv.need(m[2])
                if g is None: cv.notes.append(f"need {m[2]} unknown"); g='UNKNOWN-'+m[2]
                cv.used.add(g)
                k=body.index('='); lhs=body[:k].split(); b=body[k+1:]
                if b.strip() in('search rules','search needs'): continue
                args=[x for x in lhs[1:] if x!='κs']
                cn=args[-1]; tn=args[0] if len(args)>1 else 't'
                b=cv.body(b,cn,cv.j['stem']+g)
                if g in cv.asked: b=cv.record(b,cv.asked[g])
                G=cv.j['stem']+g
                out[f][1].append(f"{pend}pub {G} : goal.{G}\n"+''.join(u+'\n' for u in cl[:-1])+f"{G} {tn} {cn} ={b.rstrip()}"); pend=''
                continue
            s='\n'.join([sig]+cl)
            if re.search(r"-closed\b",name) or ' close ' in s: continue
            if re.search(r"-lts\.",s):
                a=re.search(r"(\S+-lts)\.(\S+)",s)
                f=alias.get(a[1].lstrip('(')); 
                if f:
                    cv=cvs[f]; ps=re.findall(r"-lts\.([\w-]+)",s)
                    for p in ps:
                        np=cv.places.get(canon(p))
                        if np is None: notes.append('place '+p); continue
                        s=re.sub(r"\(?\S+-lts\."+re.escape(p)+r"(?: \([^()]*\)| [\w.-]+(?<!→))*?\)?(?=\)| →|\s*$)",np,s)
                        cv.imported.add(np); 
                    s=cv.body(s,'c',None)
                notes.append(f"helper {name} over a place")
            out[list(fns)[0]][1].append(pend+re.sub(r"^pub ","",s)); pend=''
    skip=['.{statement}','.Tie','Reads as','.Lts','Kinds as','borrow.Fn.','.Proof.']
    base=f"Rattle.{crate}.proofs.{rel}"
    seen=set(); use=[u for u in use if not (u in seen or seen.add(u))]
    imp=sorted(set().union(*[cv.imported for cv in cvs.values()]))
    inv='\n\n'.join(x for f in out for x in out[f][0]); ans='\n\n'.join(x for f in out for x in out[f][1])
    if inv: open(os.path.join(folder,'Invariants.antt'),'w').write('\n'.join(head+uses(use,inv,skip)+[f"use {base}.Given as goal"])+'\n\n'+inv+'\n')
    if ans: open(os.path.join(folder,'Answers.antt'),'w').write('\n'.join(head+uses(use,ans,skip)+[f"use {base}.Goals as goal"]+([f"use {base}.Goals.{{{', '.join(imp)}}}"] if imp else []))+'\n\n'+ans+'\n')
    for pf in files: os.remove(pf)
    if os.path.isdir(sub): os.rmdir(sub)
    for f,cv in cvs.items(): notes+=[f+': '+n for n in cv.notes]
    return f"{rel}: recursive"+''.join('\n    '+n for n in notes)

def main():
    global SRC
    names=json.load(open(sys.argv[1])); cd=sys.argv[2]; only=sys.argv[3:]; SRC=os.path.join(cd,'src')
    for dd,ds,fs in sorted(os.walk(os.path.join(cd,'proofs'))):
        if 'Proof.antt' in fs:
            rel=os.path.relpath(dd,os.path.join(cd,'proofs'))
            if only and rel.replace('/','.') not in only: continue
            if rel.split('/')[-1].startswith('+'): print(recursive(names,cd,dd)); continue
            print(convert(names,cd,os.path.join(dd,'Proof.antt')))
main()
