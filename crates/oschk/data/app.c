uint8_t x;
TASK(T) {
  x = 1;
  assert(x == 1);
  TerminateTask();
}
