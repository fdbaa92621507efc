-- A shop: its storefront is written with Rails, its back office with Django.

CREATE TABLE "countries" (
    "id" BIGINT NOT NULL PRIMARY KEY,
    "code" VARCHAR(2) NOT NULL UNIQUE,
    "name" VARCHAR NOT NULL
);

CREATE TABLE "customers" (
    "id" BIGINT NOT NULL,
    "email" VARCHAR NOT NULL,
    "name" VARCHAR NOT NULL,
    "country_id" BIGINT NOT NULL,
    "referrer_id" BIGINT,
    "vip" SMALLINT NOT NULL,
    CONSTRAINT "customers_pkey" PRIMARY KEY ("id"),
    CONSTRAINT "index_customers_on_email" UNIQUE ("email"),
    CONSTRAINT "fk_customers_countries" FOREIGN KEY ("country_id") REFERENCES "countries" ("id"),
    CONSTRAINT "fk_customers_referrers" FOREIGN KEY ("referrer_id") REFERENCES "customers" ("id") ON DELETE SET NULL
);

CREATE TABLE "addresses" (
    "id" BIGINT NOT NULL PRIMARY KEY,
    "customer_id" BIGINT NOT NULL REFERENCES "customers" ("id") ON DELETE CASCADE,
    "street" VARCHAR NOT NULL,
    "city" VARCHAR NOT NULL,
    "country_id" BIGINT NOT NULL REFERENCES "countries" ("id")
);

CREATE TABLE "suppliers" (
    "id" BIGINT NOT NULL PRIMARY KEY,
    "name" VARCHAR NOT NULL,
    "country_id" BIGINT REFERENCES "countries" ("id")
);

CREATE TABLE "categories" (
    "id" BIGINT NOT NULL PRIMARY KEY,
    "slug" VARCHAR(80) NOT NULL UNIQUE,
    "parent_id" BIGINT REFERENCES "categories" ("id")
);

CREATE TABLE "products" (
    "id" BIGINT NOT NULL PRIMARY KEY,
    "sku" VARCHAR(32) NOT NULL UNIQUE,
    "title" VARCHAR NOT NULL,
    "category_id" BIGINT NOT NULL REFERENCES "categories" ("id"),
    "supplier_id" BIGINT REFERENCES "suppliers" ("id") ON DELETE SET NULL,
    "price_cents" INTEGER NOT NULL,
    "discontinued" SMALLINT NOT NULL
);

CREATE TABLE "tags" (
    "id" BIGINT NOT NULL PRIMARY KEY,
    "name" VARCHAR(40) NOT NULL UNIQUE
);

CREATE TABLE "products_tags" (
    "product_id" BIGINT NOT NULL REFERENCES "products" ("id") ON DELETE CASCADE,
    "tag_id" BIGINT NOT NULL REFERENCES "tags" ("id") ON DELETE CASCADE,
    CONSTRAINT "products_tags_pkey" PRIMARY KEY ("product_id", "tag_id")
);

CREATE TABLE "orders" (
    "id" BIGINT NOT NULL PRIMARY KEY,
    "number" VARCHAR(20) NOT NULL UNIQUE,
    "customer_id" BIGINT NOT NULL REFERENCES "customers" ("id"),
    "address_id" BIGINT REFERENCES "addresses" ("id"),
    "status" VARCHAR(12) NOT NULL,
    "placed_on" INTEGER NOT NULL,
    "total_cents" INTEGER NOT NULL
);

CREATE TABLE "line_items" (
    "id" BIGINT NOT NULL PRIMARY KEY,
    "order_id" BIGINT NOT NULL REFERENCES "orders" ("id") ON DELETE CASCADE,
    "product_id" BIGINT NOT NULL REFERENCES "products" ("id"),
    "quantity" INTEGER NOT NULL,
    CONSTRAINT "index_line_items_on_order_and_product" UNIQUE ("order_id", "product_id")
);

-- An order has one payment at most.
CREATE TABLE "payments" (
    "id" BIGINT NOT NULL PRIMARY KEY,
    "order_id" BIGINT NOT NULL UNIQUE REFERENCES "orders" ("id"),
    "gateway" VARCHAR(20) NOT NULL,
    "captured_on" INTEGER
);

-- A customer who left keeps the review without a name.
CREATE TABLE "reviews" (
    "id" BIGINT NOT NULL PRIMARY KEY,
    "product_id" BIGINT NOT NULL REFERENCES "products" ("id") ON DELETE CASCADE,
    "customer_id" BIGINT REFERENCES "customers" ("id") ON DELETE SET NULL,
    "rating" SMALLINT NOT NULL,
    "body" TEXT,
    CONSTRAINT "index_reviews_on_product_and_customer" UNIQUE ("product_id", "customer_id")
);

-- A stock level has a key of two columns, and each movement names one.
CREATE TABLE "stock_levels" (
    "warehouse" VARCHAR(8) NOT NULL,
    "product_id" BIGINT NOT NULL REFERENCES "products" ("id"),
    "on_hand" INTEGER NOT NULL,
    PRIMARY KEY ("warehouse", "product_id")
);

CREATE TABLE "stock_movements" (
    "id" BIGINT NOT NULL PRIMARY KEY,
    "warehouse" VARCHAR(8) NOT NULL,
    "product_id" BIGINT NOT NULL,
    "change" INTEGER NOT NULL,
    FOREIGN KEY ("warehouse", "product_id") REFERENCES "stock_levels" ("warehouse", "product_id")
);
