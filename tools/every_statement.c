#include "dream386.h"

void f_0000beef(void)
{
  uint32_t t0 = 0u;
  uint32_t b0 = 0u;
  uint32_t b1 = 0u;
  uint32_t s0 = 0u;
  t0 = ld2((ebp - 0x10u));
  if ((t0 < 0x2u)) {
    st4(esp, (~t0));
  } else if ((!((cf == 0x0u) || (zf != 0x0u)))) {
    ext(0x8049000u);
  } else {
    trap(0x0u, divubad(edx, b0, ecx));
  }
  do {
    b1 = ((t0 <= 0x3u) ? sar(eax, 0x1u) : (~par(ecx)));
    switch (s0) {
    case 0x1u: case 0xau: {
      while (1) {
        break;
      }
    } break;
    case 0x2u: {
      s0 = 0x0u;
    } break;
    default: {
    } break;
    }
  } while (((b1 != 0x0u) && (t0 < 0x10u)));
  while ((fsbase == (gsbase >> 0x1fu))) {
    eax = (ebx + ecx);
    eax = (ebx - ecx);
    eax = (ebx * ecx);
    eax = (ebx & ecx);
    eax = (ebx | ecx);
    eax = (ebx ^ ecx);
    eax = (ebx << ecx);
    eax = (ebx >> ecx);
    pf = sx1(esi);
    pf = sx2(esi);
    pf = par(esi);
    pf = bsf(esi);
    pf = bsr(esi);
    sf = sar(edi, 0xffffffffu);
    sf = lts(edi, 0xffffffffu);
    sf = mulhu(edi, 0xffffffffu);
    sf = mulhs(edi, 0xffffffffu);
    of = divubad(edx, eax, ebp);
    of = divuq(edx, eax, ebp);
    of = divur(edx, eax, ebp);
    of = divsbad(edx, eax, ebp);
    of = divsq(edx, eax, ebp);
    of = divsr(edx, eax, ebp);
    zf = ld1(esp);
    st1(esp, zf);
    zf = ld2(esp);
    st2(esp, zf);
    zf = ld4(esp);
    st4(esp, zf);
  }
  if ((!(t0 != b1))) {
    cf = fsbase;
  }
  return;
}
