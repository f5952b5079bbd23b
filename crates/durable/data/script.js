export class A extends DurableObject {
  async plain() { return await this.env.B.get(this.env.B.idFromName("b")).back(); }
  async held() { return await this.ctx.blockConcurrencyWhile(async () => { return await this.env.B.get(this.env.B.idFromName("b")).back(); }); }
  async ping() { return 7; }
}
export class B extends DurableObject {
  async back() { return await this.env.A.get(this.env.A.idFromName("a")).ping(); }
}
