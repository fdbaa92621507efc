-- A dump with a type and a default that are left out.

CREATE TABLE IF NOT EXISTS "invoices" (
    "id" BIGINT NOT NULL,
    "number" VARCHAR(32) NOT NULL,
    "issued_on" INTEGER NOT NULL,
    CONSTRAINT "invoices_pkey" PRIMARY KEY ("id"),
    CONSTRAINT "invoices_number_key" UNIQUE ("number")
);

CREATE TABLE IF NOT EXISTS "invoice_lines" (
    "invoice_id" BIGINT NOT NULL REFERENCES "invoices" ("id") ON DELETE CASCADE,
    "position" INTEGER NOT NULL,
    "text" TEXT NOT NULL,
    "quantity" INTEGER DEFAULT 1 NOT NULL,
    "price" NUMERIC(12, 2) NOT NULL,
    CONSTRAINT "invoice_lines_pkey" PRIMARY KEY ("invoice_id", "position")
);
