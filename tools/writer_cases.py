#!/usr/bin/env python3
"""writer_cases.py: makes crates/writer_cases/stdin, a script of writer calls, and stdout, what the program must tell of each: the
refusal's number and place, the state, and digests of the buffers. What is expected comes from the model below, an independent
reading of document 01's writer. `finished()` gives the blobs that the script finishes. Run from the root of the repository."""
import os
import sys

CEIL=1048576
NODE=set(b"0123456789abcdefghijklmnopqrstuvwxyzABCDEFGHIJKLMNOPQRSTUVWXYZ,._+-")
PROP=NODE|set(b"?#")
def node_ok(n):
    if n==b"": return True
    p=n.split(b"@")
    if len(p)>2: return False
    return 1<=len(p[0])<=31 and all(c in NODE for c in p[0]) and (len(p)==1 or all(c in NODE for c in p[1]))
def prop_ok(n): return 1<=len(n)<=31 and all(c in PROP for c in n)
def pad(b): return b+bytes(-len(b)%4)
def be(n,k): return n.to_bytes(k,'big')
class Refuse(Exception): pass
class S:
    def __init__(s,n,fin): s.data_len=s.off_dt_struct=n; s.strings_len=s.phandles_len=s.node_depth=0; s.node_ended=False; s.finished=fin; s.boot_cpuid_phys=0
def entries_ok(rs):
    for a,z in rs:
        if z==0 or a+z>=2**64: raise Refuse(27)
    q=sorted(rs,key=lambda r:r[0])
    for x,y in zip(q,q[1:]):
        if x[0]+x[1]>y[0]: raise Refuse(28)
class M:
    def __init__(m,d,s,t): m.data=bytearray([238]*d); m.strings=bytearray([238]*s); m.table=[7]*t; m.w=None
    def room(m,lent,after):
        if after>min(lent,CEIL): raise Refuse(33)
    def sane(m,strings=True):
        w=m.w
        if w.finished or w.data_len<56 or w.data_len%4 or not 56<=w.off_dt_struct<=w.data_len or w.node_depth>64 or w.data_len>min(len(m.data),CEIL) or w.strings_len>(min(len(m.strings),CEIL) if strings else CEIL): raise Refuse(34)
    def put(m,b): m.data[m.w.data_len:m.w.data_len+len(b)]=b; m.w.data_len+=len(b)
    def start(m,rs,count=None):
        count=len(rs) if count is None else count
        try:
            if count>32: raise Refuse(33)
            rs=rs[:count]
            entries_ok(rs)
            b=bytes(40)+b"".join(be(a,8)+be(z,8) for a,z in rs)+bytes(16)
            m.room(len(m.data),len(b))
        except Refuse:
            m.w=S(0,True); raise
        m.data[0:len(b)]=b; m.w=S(len(b),False)
    def begin(m,n):
        m.sane(False)
        if m.w.node_depth>=64: raise Refuse(31)
        if 0 in n: raise Refuse(24)
        if not node_ok(n): raise Refuse(29)
        b=be(1,4)+pad(n+b"\0"); m.room(len(m.data),m.w.data_len+len(b)); m.put(b); m.w.node_depth+=1; m.w.node_ended=False
    def end(m,d):
        m.sane(False)
        if d==0 or d!=m.w.node_depth: raise Refuse(25)
        m.room(len(m.data),m.w.data_len+4); m.put(be(2,4)); m.w.node_depth-=1; m.w.node_ended=True
    def find(m,n):
        block=bytes(m.strings[:m.w.strings_len]); at=0
        while True:
            k=block.find(b"\0",at)
            if k<0: return None
            if block[at:k]==n: return at
            at=k+1
    def prop(m,n,v,bad=False,after=None):
        if after is None: m.sane()
        if bad: raise Refuse(24)
        w=m.w
        if w.node_ended: raise Refuse(21)
        if w.node_depth==0: raise Refuse(20)
        if 0 in n: raise Refuse(24)
        if not prop_ok(n): raise Refuse(30)
        at=m.find(n); off=w.strings_len if at is None else at
        b=be(3,4)+be(len(v),4)+be(off,4)+pad(v)
        m.room(len(m.data),w.data_len+len(b))
        g=n+b"\0" if at is None else b""
        m.room(len(m.strings),w.strings_len+len(g))
        if after: after()
        m.put(b); m.strings[w.strings_len:w.strings_len+len(g)]=g; w.strings_len+=len(g)
    def phandle(m,v):
        m.sane(); w=m.w
        if w.phandles_len>len(m.table): raise Refuse(34)
        if v in m.table[:w.phandles_len]: raise Refuse(32)
        def full():
            if w.phandles_len+1>len(m.table): raise Refuse(33)
        m.prop(b"phandle",be(v,4),after=full)
        m.table[w.phandles_len]=v; w.phandles_len+=1
    def finish(m):
        m.sane(); w=m.w
        if w.node_depth: raise Refuse(26)
        total=w.data_len+4+w.strings_len
        m.room(len(m.data),total)
        at=w.data_len
        m.data[at:at+4]=be(9,4); m.data[at+4:total]=m.strings[:w.strings_len]
        h=b"".join(be(x,4) for x in(0xd00dfeed,total,w.off_dt_struct,at+4,40,17,16,w.boot_cpuid_phys,w.strings_len,at+4-w.off_dt_struct))
        m.data[:40]=h; w.data_len=total; w.finished=True
def dig(xs):
    h=0
    for x in xs: h=(h*16777619+x+1)%2**32
    return h
BIG=2**64
A31=b"abcdefghijklmnopqrstuvwxyz01234"
SC=[]
def sc(name,d,s,t,*steps): SC.append((name,d,s,t,steps))
sc("empty",60,8,2,("new",),("boot",7),("finish",),("boot",9),("finish",),("begin",b""))
sc("empty_short",59,8,2,("new",),("finish",))
sc("start_short",55,8,2,("new",),("finish",),("boot",5))
sc("start_full",56,8,2,("new",),("begin",b""))
sc("root_a",90,2,2,("new",),("begin",b""),("prop",b"a",b"7"),("end",1),("finish",))
sc("root_a_short",89,1,2,("new",),("begin",b""),("prop",b"a",b"7"),("forge",{"strings_len":1}),("prop",b"a",b"7"))
sc("root_a_strings",89,2,2,("new",),("begin",b""),("prop",b"a",b"7"),("end",1),("finish",))
sc("nodes",256,16,2,("new",),("end",0),("begin",b"a\0b"),("begin",b"a@"),("begin",b"@1"),("begin",b"a@b@c"),("begin",A31),("begin",A31+b"x"),("begin",b"n/o"),("begin",b"caf\xc3\xa9"),("end",1),("end",2),("finish",),("end",2),("end",1))
sc("depth",128,16,2,("new",),("forge",{"node_depth":63}),("begin",b""),("begin",b""),("begin",b"a\0"),("forge",{"node_depth":65}),("begin",b""),("end",65),("forge",{"node_depth":64}),("end",64))
sc("nested",828,8,2,("new",),("begin",b""),*[("begin",b"n")]*63,("begin",b"n"),("begin",b"a/b"),("end",65),*[("end",64-i) for i in range(64)],("finish",))
sc("properties",512,48,2,("new",),("prop",b"a",b""),("begin",b""),("prop",b"a\0b",b""),("prop",b"",b"x"),("prop",A31,b"four"),("prop",A31+b"x",b"x"),("prop",b"a/b",b"x"),("prop",b"#a?",b"five5"),("prop",b"#a?",b""),("end",1),("prop",b"a/b",b"x"),("prop",b"a",b"x"))
sc("values",512,64,2,("new",),("begin",b""),("null",b"none"),("string",b"s",b"text"),("string",b"s",b""),("string",b"s",b"a\0b"),("list",b"l",b"one\0two\0"),("list",b"l",b"one\0two"),("list",b"l",b""),("u32",b"w",0xfffefdfc),("u64",b"v",0x0102030405060708),("cells",b"c",[1,2,0xffffffff]),("longs",b"d",[2**64-1,5,0]),("cells",b"c",[]),("longs",b"d",[]),("end",1),("finish",))
sc("bad_values_first",128,8,2,("new",),("string",b"a/b",b"x\0"),("list",b"",b"x"),("string",b"a/b",b"x"),("begin",b""),("end",1),("string",b"a",b"x\0"),("string",b"a",b"x"))
sc("interned",256,32,2,("new",),("begin",b""),("prop",b"linux,phandle",b""),("prop",b"phandle",b""),("prop",b"phandle",b"x"),("prop",b"linux",b""),("prop",b"x",b""))
sc("phandles",256,32,2,("new",),("phandle",1),("begin",b""),("phandle",1),("phandle",1),("begin",b"a"),("phandle",2),("begin",b"b"),("phandle",3),("end",3),("phandle",3),("phandle",1))
sc("phandle_again",92,8,4,("new",),("begin",b""),("phandle",5),("phandle",6),("phandle",6),("forge",{"phandles_len":5}),("phandle",9),("forge",{"phandles_len":4}),("phandle",9),("phandle",7))
sc("forged",128,8,2,("new",),("forge",{"data_len":52}),("begin",b""),("forge",{"data_len":58}),("begin",b""),("forge",{"data_len":64,"off_dt_struct":52}),("begin",b""),("forge",{"off_dt_struct":68}),("begin",b""),("forge",{"off_dt_struct":56,"data_len":132}),("begin",b""),("forge",{"data_len":BIG-4}),("end",1),("finish",),("forge",{"data_len":64,"strings_len":9}),("begin",b"k"),("prop",b"a",b"x"),("finish",))
sc("forged_on",128,8,2,("new",),("begin",b"k"),("forge",{"strings_len":CEIL+1}),("begin",b"l"),("forge",{"strings_len":BIG-1}),("prop",b"a",b""),("forge",{"strings_len":8}),("prop",b"a",b"x"),("phandle",1),("forge",{"node_depth":0}),("finish",))
sc("strings_full",128,4,2,("new",),("begin",b""),("prop",b"a",b""),("prop",b"b",b""),("prop",b"c",b""),("prop",b"b",b""),("prop",b"cd",b""))
sc("past_ceiling",CEIL+8,8,2,("new",),("forge",{"data_len":CEIL-4,"node_depth":2}),("end",2),("end",1),("forge",{"data_len":CEIL+4}),("end",1),("forge",{"data_len":CEIL,"node_depth":0}),("finish",),("forge",{"data_len":CEIL-4}),("finish",))
R2=[(0,4096),(4096,1)]
sc("reserved",92,8,2,("start",R2),("finish",))
sc("reserved_short",87,8,2,("start",R2),)
sc("overlap",128,8,2,("start",[(4096,1),(0,4097)]),("start",[(8,8),(8,1)]),("start",[(0,BIG-1)]),("start",[(16,8),(0,16),(24,8)]),("start",[(BIG-2,1),(0,1)]))
ROWS=[(16*i,8) for i in range(32)]
sc("thirty_two",568,8,2,("rows",32),("rows",33),("rows",31),("finish",))
sc("thirty_two_short",567,8,2,("rows",32),("rows",31))


def tx(b): return b.replace(b"\0",b"~")


def run():
    """The script, what is told of it, and each blob that it finishes."""
    script, out, blobs = [], [], []
    F=["data_len","off_dt_struct","strings_len","phandles_len","node_depth"]
    def line(l,n,m):
        w=m.w
        out.append(l+b"".join(b" %d"%x for x in(n,0,w.data_len,w.strings_len,w.phandles_len,w.node_depth,int(w.node_ended),int(w.finished),w.boot_cpuid_phys,dig(m.data),dig(m.strings),dig(m.table))))
    MADE=[(0,4096),(0,0),(2**64-1,1),(2**64-2,1),(1,2**64-1),(0,2**64-1)]
    for name,d,s,t,steps in SC:
        if script: script.append(b"")
        head=b"%s %x %x %x"%(name.encode(),d,s,t); script.append(head); out.append(head)
        m=M(d,s,t)
        for st in steps:
            op=st[0]
            if op=="forge":
                for f,v in st[1].items():
                    l=b"alter %x %x"%(F.index(f),v); script.append(l); setattr(m.w,f,v); line(l,0,m)
                continue
            n=0
            a=st[1:]
            try:
                if op=="new": l=b"new"; m.start([])
                elif op=="start": l=b"start %x"%len(a[0])+b"".join(b" %x %x"%r for r in a[0]); m.start(a[0])
                elif op=="rows": l=b"rows %x"%a[0]; m.start(ROWS,a[0])
                elif op=="begin": l=b"begin "+tx(a[0]); m.begin(a[0])
                elif op=="end": l=b"end %x"%a[0]; m.end(a[0])
                elif op=="prop": l=b"property "+tx(a[0])+b" "+tx(a[1]); m.prop(a[0],a[1])
                elif op=="null": l=b"zero "+tx(a[0]); m.prop(a[0],b"")
                elif op=="string": l=b"text "+tx(a[0])+b" "+tx(a[1]); m.prop(a[0],a[1]+b"\0",0 in a[1])
                elif op=="list": l=b"list "+tx(a[0])+b" "+tx(a[1]); m.prop(a[0],a[1],a[1]!=b"" and a[1][-1]!=0)
                elif op=="u32": l=b"word "+a[0]+b" %x"%a[1]; m.prop(a[0],be(a[1],4))
                elif op=="u64": l=b"quad "+a[0]+b" %x"%a[1]; m.prop(a[0],be(a[1],8))
                elif op=="cells": l=b"cells "+a[0]+b"".join(b" %x"%x for x in a[1]); m.prop(a[0],b"".join(be(x,4) for x in a[1]))
                elif op=="longs": l=b"double "+a[0]+b"".join(b" %x"%x for x in a[1]); m.prop(a[0],b"".join(be(x,8) for x in a[1]))
                elif op=="phandle": l=b"handle %x"%a[0]; m.phandle(a[0])
                elif op=="finish":
                    l=b"finish"; m.finish(); blobs.append((name,bytes(m.data[:m.w.data_len])))
                elif op=="boot": l=b"id %x"%a[0]; m.w.boot_cpuid_phys=a[0]
            except Refuse as e: n=e.args[0]
            l=l.rstrip(b" "); script.append(l); line(l,n,m)
        if name=="root_a": assert m.w.data_len==90 and int.from_bytes(m.data[36:40],'big')==32
        if name=="empty": assert m.w.data_len==60
    for a,z in MADE:
        l=b"made %x %x"%(a,z); script+=[b"",l]; out.append(l+b" %d 0"%(27 if z==0 or a+z>=2**64 else 0))
    return script, out, blobs


def finished():
    return run()[2]


def main():
    script, out, _ = run()
    folder = os.path.join("crates", "writer_cases")
    with open(os.path.join(folder, "stdin"), "wb") as f:
        f.write(b"\n".join(script) + b"\n")
    with open(os.path.join(folder, "stdout"), "wb") as f:
        f.write(b"\n".join(out) + b"\n")


if __name__ == "__main__":
    main()
