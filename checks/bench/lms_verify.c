/* Baseline: LMS verification (RFC 8554, SHA-256, n = m = 32) in plain C, to measure Bulwynef against.
   Two SHA-256 back ends: "transform" = libcrypto's SHA256_Transform on a pre-padded block (the practical limit
   on a machine without SHA instructions), "update" = SHA256_Init/Update/Final as an ordinary C user would write it.
   Reads lines 'key message signature' in hexadecimal. Prints counts and times. Build: gcc -O3 -march=native lms_verify.c -lcrypto (Debian libssl-dev). */
#define OPENSSL_SUPPRESS_DEPRECATED
#include <openssl/sha.h>
#include <stdint.h>
#include <stdio.h>
#include <stdlib.h>
#include <string.h>
#include <time.h>
typedef uint8_t u8;
static const struct { int w, p, ls; } OTS[5] = {{0,0,0},{1,265,7},{2,133,6},{4,67,4},{8,34,0}};
static u8 *unhex(const char *s, size_t *n){ size_t l=strlen(s); while(l&&(s[l-1]=='\n'||s[l-1]=='\r'))l--; u8*b=malloc(l/2+1); for(size_t i=0;i<l/2;i++){unsigned v; sscanf(s+2*i,"%2x",&v); b[i]=v;} *n=l/2; return b;}
static uint32_t be32(const u8*p){return (uint32_t)p[0]<<24|p[1]<<16|p[2]<<8|p[3];}
static void put32(u8*p,uint32_t v){p[0]=v>>24;p[1]=v>>16;p[2]=v>>8;p[3]=v;}
static int fast;
static unsigned long steps;
static void chain(const u8*I,uint32_t q,int i,int from,int to,u8*tmp){
  if(fast){ u8 b[64]; memcpy(b,I,16); put32(b+16,q); b[20]=i>>8; b[21]=i; memset(b+55,0,9); b[55]=0x80; b[62]=(55*8)>>8; b[63]=(55*8)&255; memcpy(b+23,tmp,32);
    for(int j=from;j<to;j++){ b[22]=j; SHA256_CTX c; SHA256_Init(&c); SHA256_Transform(&c,b); for(int k=0;k<8;k++) put32(b+23+4*k,c.h[k]); steps++; }
    memcpy(tmp,b+23,32);
  } else for(int j=from;j<to;j++){ SHA256_CTX c; SHA256_Init(&c); u8 h[7]; put32(h,q); h[4]=i>>8;h[5]=i;h[6]=j; SHA256_Update(&c,I,16); SHA256_Update(&c,h,7); SHA256_Update(&c,tmp,32); SHA256_Final(tmp,&c); steps++; }
}
static int coef(const u8*S,int i,int w){ return ((1<<w)-1)&(S[i*w/8]>>(8-(w*(i%(8/w))+w))); }
static int verify(const u8*pk,size_t pkn,const u8*msg,size_t mn,const u8*sig,size_t sn){
  if(pkn!=56) return 0; uint32_t lt=be32(pk),ot=be32(pk+4); if(lt<5||lt>9||ot<1||ot>4) return 0;
  int h=5*(lt-4),w=OTS[ot].w,p=OTS[ot].p; if(sn!=(size_t)(12+32*(p+1)+32*h)) return 0;
  const u8*I=pk+8; uint32_t q=be32(sig); if(be32(sig+4)!=ot) return 0; const u8*C=sig+8,*y=sig+40; const u8*t=y+32*p; if(be32(t)!=lt) return 0; if(q>=(1u<<h)) return 0;
  u8 Q[34]; SHA256_CTX c; SHA256_Init(&c); u8 x[6]; put32(x,q); x[4]=0x81;x[5]=0x81; SHA256_Update(&c,I,16);SHA256_Update(&c,x,6);SHA256_Update(&c,C,32);SHA256_Update(&c,msg,mn);SHA256_Final(Q,&c);
  unsigned s=0; for(int i=0;i<256/w;i++) s+=((1<<w)-1)-coef(Q,i,w); s=(s<<OTS[ot].ls)&0xffff; Q[32]=s>>8;Q[33]=s;
  SHA256_CTX k; SHA256_Init(&k); x[4]=0x80;x[5]=0x80; SHA256_Update(&k,I,16); SHA256_Update(&k,x,6);
  for(int i=0;i<p;i++){ u8 tmp[32]; memcpy(tmp,y+32*i,32); chain(I,q,i,coef(Q,i,w),(1<<w)-1,tmp); SHA256_Update(&k,tmp,32);} u8 K[32]; SHA256_Final(K,&k);
  uint32_t r=(1u<<h)+q; u8 T[32]; SHA256_Init(&c); put32(x,r); x[4]=0x82;x[5]=0x82; SHA256_Update(&c,I,16);SHA256_Update(&c,x,6);SHA256_Update(&c,K,32);SHA256_Final(T,&c);
  const u8*path=t+4; while(r>1){ SHA256_Init(&c); put32(x,r/2); x[4]=0x83;x[5]=0x83; SHA256_Update(&c,I,16);SHA256_Update(&c,x,6); if(r&1){SHA256_Update(&c,path,32);SHA256_Update(&c,T,32);} else {SHA256_Update(&c,T,32);SHA256_Update(&c,path,32);} SHA256_Final(T,&c); path+=32; r/=2; }
  return !memcmp(T,pk+24,32);
}
static double now(void){struct timespec t;clock_gettime(CLOCK_MONOTONIC,&t);return t.tv_sec+t.tv_nsec*1e-9;}
int main(int ac,char**av){
  /* stdin: lines "keyhex msghex sighex" */
  static char line[1<<20]; enum { MOST = 65536 }; static u8*pk[MOST],*m[MOST],*s[MOST]; static size_t pl[MOST],ml[MOST],sl[MOST]; int n=0;
  while(n<MOST&&fgets(line,sizeof line,stdin)){ char*a=strchr(line,' '); if(!a||line[0]=='#') continue; char*b=strchr(a+1,' '); if(!b) continue; *a=*b=0; pk[n]=unhex(line,&pl[n]); m[n]=unhex(a+1,&ml[n]); s[n]=unhex(b+1,&sl[n]); n++; }
  int reps=ac>1?atoi(av[1]):10;
  for(fast=0;fast<2;fast++){ int ok=0; steps=0; double t=now(); for(int r=0;r<reps;r++) for(int i=0;i<n;i++) ok+=verify(pk[i],pl[i],m[i],ml[i],s[i],sl[i]); t=now()-t;
    printf("%s: %d of %d verified, %.1f us each, %.1f ns per chain step, %.3f s a pass\n",fast?"transform":"update",ok,n*reps,1e6*t/(n*reps),1e9*t/steps,t/reps); }
}
